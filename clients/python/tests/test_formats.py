"""Stores that an earlier build left, of format 1: the client uses, copies and salvages them, and they become stores of format 2."""

from __future__ import annotations

import functools
import os
import shutil
import signal
from typing import Any, Callable, Dict, List, Optional, Tuple

import damaged
from damaged import BLOCK, formats
from hubs import HubCase
from support import StoreCase, needs

import castle
import keptfiles  # type: ignore[import-not-found]  # `damaged` has put its folder on the path
from castle import Store, errors, fileform, levels, replicate

Contents = Tuple[List[Optional[int]], List[Dict[bytes, bytes]]]


def contents_of(path: str) -> Contents:
    """The parents and the pairs of each version of a store."""
    with Store(path) as store:
        parents = [info and info.parent for info in store.versions()]
        return parents, [dict(store.scan(version)) for version in range(len(parents))]


def of_each_kept_file(test: Callable[[Any, Any], None]) -> Callable[[Any], None]:
    """Has a test run for each kept file with the model of it. The test's store has its bytes, and nothing else is in the folder."""
    @functools.wraps(test)
    def run(case: KeptCase) -> None:
        for name in keptfiles.MADE:
            shutil.rmtree(case.folder)
            os.mkdir(case.folder)
            case.write(keptfiles.data_of(name))
            with case.subTest(name):
                test(case, keptfiles.model_of(name))

    return run


class KeptCase(StoreCase):
    in_memory = True

    def setUp(self) -> None:
        super().setUp()
        self.to = os.path.join(self.folder, "to.store")

    def write(self, data: bytes) -> None:
        """Has the store's file have these bytes."""
        with open(self.path, "wb") as file:
            file.write(data)

    def head(self, path: Optional[str] = None) -> fileform.Head:
        """The superblock that counts in a store's file."""
        with open(path or self.path, "rb") as file:
            return fileform.read_head(file.fileno())

    def publish(self, store: Store, model: Any) -> None:
        """Has the store, and the model beside it, take puts at the newest version up to one that ends in a checkpoint."""
        generation, version, slots = self.head().generation, len(model.parents) - 1, self.bytes_of("a.store")[:2 * BLOCK]
        for number in range(2 * model.limits[0]):
            key, value = b"%d" % (number % 17), b"put %d" % number
            store.put(version, key, value)
            model.make((formats.PUT, version, key, value))
            if self.head().generation > generation:
                return
            self.assertEqual(self.bytes_of("a.store")[:2 * BLOCK], slots)
        self.fail("no put ended in a checkpoint")


class UsedTest(KeptCase):
    @of_each_kept_file
    def test_a_store_of_format_1_is_used_and_becomes_one_of_format_2(self, model: Any) -> None:
        old = self.bytes_of("a.store")
        self.assertEqual(contents_of(self.path), (model.parents, model.pairs))
        self.assertEqual(self.bytes_of("a.store"), old)
        with Store(self.path) as store:
            self.assertIsNone(store.get(0, "absent"))
            self.assertEqual(tuple(store.limits()), model.limits)
            self.assertEqual(self.head().form, 1)
            self.publish(store, model)
            self.assertEqual(self.head().form, 2)
            self.assertEqual(store.levels().generation, self.head().generation)
            self.assertTrue(store.verdict())
        with open(self.path, "rb") as file:
            manifest = fileform.read_manifest(file.fileno(), self.head())
        self.assertEqual((manifest.head[3], manifest.marks), (0, bytes(len(manifest.parents) + 1)))
        self.assertEqual(contents_of(self.path), (model.parents, model.pairs))
        self.assertTrue(Store.check(self.path))

    @of_each_kept_file
    def test_the_levels_and_a_check_of_a_store_of_format_1(self, model: Any) -> None:
        text, _ = formats.levels_printed(self.bytes_of("a.store"))
        with Store(self.path) as store:
            self.assertEqual(store.levels(), levels.read(text.decode()))
            self.assertEqual(tuple(store.stat())[:3], model.counts())
        self.assertEqual(self.ran("a.store", "check"), ("sound\n", "", 0))

    @of_each_kept_file
    def test_a_store_of_format_1_goes_through_a_dump_and_an_export(self, model: Any) -> None:
        dump, exported = os.path.join(self.folder, "all.dump"), os.path.join(self.folder, "first.frames")
        with Store(self.path) as store:
            store.dump_all(dump)
            store.export(0, exported)
        Store.format(self.to, *model.limits)
        self.assertEqual(self.head(self.to).form, 2)
        with Store(self.to) as store:
            store.load_all(dump)
        self.assertEqual(contents_of(self.to), (model.parents, model.pairs))
        Store.format(self.to, *model.limits, overwrite=True)
        with Store(self.to) as store:
            store.import_from(exported, 0)
        self.assertEqual(contents_of(self.to), ([None], model.pairs[:1]))


class CopiesTest(KeptCase):
    @of_each_kept_file
    def test_a_backup_has_the_format_of_its_store(self, model: Any) -> None:
        old = self.bytes_of("a.store")
        castle.backup(self.path, self.to)
        self.assertEqual(self.bytes_of("to.store"), old)
        self.assertTrue(Store.check(self.to))
        with Store(self.path) as store:
            self.publish(store, model)
            store.backup(self.to, overwrite=True)
        self.assertEqual(self.head(self.to).form, 2)
        self.assertEqual(contents_of(self.to), (model.parents, model.pairs))

    @of_each_kept_file
    def test_a_store_of_format_1_is_salvaged_into_one_of_format_2(self, model: Any) -> None:
        old = self.bytes_of("a.store")
        self.assertTrue(castle.salvage(self.path, self.to).is_whole)
        self.assertEqual(self.bytes_of("a.store"), old)
        self.assertEqual(self.head(self.to).form, 2)
        self.assertEqual(contents_of(self.to), (model.parents, model.pairs))
        self.assertTrue(Store.check(self.to))

    @of_each_kept_file
    def test_a_damaged_store_of_format_1_is_salvaged_around_the_damage(self, model: Any) -> None:
        old = self.bytes_of("a.store")
        for array in formats.arrays_of(formats.read(old).manifest):
            block = formats.blocks_of(array)[0]
            self.write(damaged.with_block(old, block, b"\xff" * BLOCK))
            found = castle.salvage(self.path, self.to, overwrite=True)
            self.assertEqual((found.blocks, found.doubt), ((block,), None))
            parents, tables = contents_of(self.to)
            self.assertEqual(parents, model.parents)
            for version, (table, before) in enumerate(zip(tables, model.pairs)):
                self.assertLessEqual(table.items(), before.items())
                missed = [lost for lost in found.lost if version in lost.versions]
                for key in set(before) - set(table):
                    self.assertTrue(any(lost.lower <= key and (lost.upper is None or key < lost.upper) for lost in missed), (version, key))


class ReplicasTest(KeptCase):
    @of_each_kept_file
    def test_a_leader_and_a_follower_that_begin_with_format_1(self, model: Any) -> None:
        needs("lead")
        copy = os.path.join(self.folder, "copy.store")
        shutil.copy(self.path, copy)
        log = replicate.Log(os.path.join(self.folder, "log"))
        with replicate.Leader(self.path, log) as leader:
            for number in range(2 * model.limits[0]):
                leader.put(len(model.parents) - 1, f"led {number}", "1")
        self.assertEqual(replicate.Replica(copy).catch_up(log), model.counts()[2] + 2 * model.limits[0])
        self.assertEqual((self.head().form, self.head(copy).form), (2, 2))
        self.assertEqual(contents_of(copy), contents_of(self.path))


class HubTest(HubCase):
    def test_a_hub_over_a_store_of_format_1(self) -> None:
        model = keptfiles.model_of("levels")
        with open(self.path, "wb") as file:
            file.write(keptfiles.data_of("levels"))
        self.served()
        store, version = self.client(), len(model.parents) - 1
        self.assertEqual([dict(store.scan(number)) for number in range(version + 1)], model.pairs)
        for number in range(2 * model.limits[0]):
            store.put(version, f"hub {number}", "1")
            model.make((formats.PUT, version, b"hub %d" % number, b"1"))
        castle.backup(self.address, os.path.join(self.folder, "to.store"))
        store.close()
        self.assertEqual(self.ended(signal.SIGTERM)[0], 0)
        for name in ("a.store", "to.store"):
            self.assertEqual(contents_of(os.path.join(self.folder, name)), (model.parents, model.pairs))
            self.assertEqual(formats.form_of(self.bytes_of(name)), 2)


class FormTest(KeptCase):
    @of_each_kept_file
    def test_a_file_is_read_and_written_in_its_format(self, model: Any) -> None:
        contents = formats.read(self.bytes_of("a.store"))
        with open(self.path, "rb") as file:
            head = fileform.read_head(file.fileno())
            manifest = fileform.read_manifest(file.fileno(), head)
        self.assertEqual(head[1:], tuple(contents.head)[2:])
        self.assertEqual((manifest.form, len(manifest.head), manifest.marks), (1, 4, b""))
        self.assertEqual(fileform.manifest_bytes(manifest), formats.spelled(contents.manifest, 1))
        # as format 2 it is no manifest
        with open(self.path, "rb") as file, self.assertRaises(ValueError):
            fileform.read_manifest(file.fileno(), head._replace(form=2))

    @of_each_kept_file
    def test_a_later_format_is_told_as_damage(self, model: Any) -> None:
        data = self.bytes_of("a.store")
        slot, head = formats.newest(data)
        self.write(damaged.damages.patched(data, slot * BLOCK, formats.head_bytes(head._replace(form=3))))
        self.assertRaises(errors.StoreDamaged, Store, self.path)
        self.assertEqual(Store.check(self.path), castle.Damaged(slot))
        self.assertRaises(errors.Unreadable, castle.salvage, self.path, self.to)
