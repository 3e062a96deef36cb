"""Stores: commands, names, locks, and a full device. Nothing here scans."""

import os
import resource
import signal
import stat
from pathlib import Path
from typing import Any
from unittest import mock

from support import StoreCase, alarm_amid, on_signal

from castle import Info, Stat, Store, errors


class CommandsTest(StoreCase):
    def test_each_command_gives_what_the_program_answers(self) -> None:
        with self.made() as store:
            store.put(0, "user/1/name", "Ann")
            store.put(0, b"user/2/name", b"\x00\xff")
            self.assertEqual(store.clone(0), 1)
            self.assertEqual(store.clone(0), 2)
            store.delete(1, "user/1/name")
            store.delete(1, "none")
            self.assertEqual(store.get(0, "user/1/name"), b"Ann")
            self.assertEqual(store.get(2, "user/2/name"), b"\x00\xff")
            self.assertIsNone(store.get(1, "user/1/name"))
            self.assertEqual((store.info(0), store.info(2)), (Info(None, 0, True), Info(0, 1, False)))
            self.assertEqual(store.stat(), Stat(3, 4, 6, 0))
            self.assertEqual(store.versions(), [Info(None, 0, True), Info(0, 1, False), Info(0, 1, False)])
        with self.opened() as store:
            self.assertEqual((store.stat(), store.get(0, "user/1/name")), (Stat(3, 4, 6, 0), b"Ann"))

    def test_text_is_utf8_and_other_kinds_are_refused(self) -> None:
        store = self.made()
        store.put(0, "é", "日本")
        self.assertEqual(store.get(0, b"\xc3\xa9"), "日本".encode())
        store.put(0, bytearray(b"x"), memoryview(b"y"))
        self.assertEqual(store.get(0, "x"), b"y")
        for words, what in (((0, 5, b""), "bytes or text, and no int"), ((0, b"a", None), "bytes or text, and no NoneType"),
                            ((None, b"a", b""), "a number or a name"), ((1.0, b"a", b""), "a number or a name")):
            with self.assertRaisesRegex(TypeError, what):
                store.put(*words)  # type: ignore[arg-type]
        self.assertEqual(store.stat().changes, 2)

    def test_text_is_not_composed(self) -> None:
        store = self.made()
        store.put(0, "e\u0301", "decomposed")
        self.assertEqual((store.get(0, b"e\xcc\x81"), store.get(0, "\u00e9")), (b"decomposed", None))
        store.put(0, "\u00e9", "e\u0301")
        self.assertEqual((store.get(0, b"\xc3\xa9"), store.get(0, "e\u0301"), len(list(store.scan(0)))), (b"e\xcc\x81", b"decomposed", 2))
        for call in (lambda: store.get(0, "\ud800"), lambda: store.put(0, "a", "\ud800"), lambda: store.scan(0, prefix="\ud800")):
            with self.assertRaisesRegex(errors.TextFault, "has no UTF-8. Give bytes."):
                call()

    def test_a_version_is_a_number_or_a_name(self) -> None:
        store = self.made()
        for version in (True, False, 0.0, b"0", None):
            for call in (store.info, store.clone, store.scan, store.at, lambda version: store.get(version, "a"), store.batch().info):
                with self.assertRaisesRegex(TypeError, "a version is a number or a name"):
                    call(version)  # type: ignore[arg-type]
        self.assertEqual(store.stat(), Stat(1, 0, 0, 0))

    def test_a_closed_store_says_so(self) -> None:
        store = self.made()
        store.names["base"] = 0
        self.assertEqual((repr(store), repr(store.names)), (f"<store {self.path}>", "<names {'base': 0}>"))
        store.close()
        self.assertEqual(repr(store), f"<closed store {self.path}>")
        store.close()
        for _ in range(2):
            with self.assertRaises(errors.StoreClosed):
                store.get(0, "a")
        with self.assertRaises(errors.StoreClosed):
            store.batch().finish()

    def test_format_leaves_a_file_alone_unless_told_to(self) -> None:
        with self.made() as store:
            store.put(0, "a", "1")
            store.names["base"] = 0
        with self.assertRaises(errors.StoreExists):
            Store.format(self.path, 64, 1000, 10)
        with self.assertRaises(errors.WrongUsage):
            Store.format(self.path, 3, 1000, 10, overwrite=True)
        with self.opened() as store:
            self.assertEqual((store.get("base", "a"), dict(store.names)), (b"1", {"base": 0}))
        Store.format(Path(self.path), 64, 1000, 10, overwrite=True)
        with self.opened() as store:
            self.assertEqual((store.get(0, "a"), dict(store.names)), (None, {}))

    def test_an_interrupted_command_loses_nothing_and_the_store_goes_on(self) -> None:
        store = self.made()
        store.put(0, "a", "1")
        store.put(0, "b", "1")

        def interrupt(*_: object) -> None:
            raise KeyboardInterrupt

        on_signal(self, interrupt)
        # the first is sent, and those behind it wait for its reply and are not
        for call in (lambda: store.put(0, "a", "2"), lambda: store.get(0, "b"), lambda: store.clone(0)):
            with alarm_amid(store), self.assertRaises(KeyboardInterrupt):
                call()
        os.kill(store.pid, signal.SIGCONT)
        self.assertEqual((store.get(0, "a"), store.get(0, "b"), store.stat()), (b"2", b"1", Stat(1, 3, 3, 0)))
        store.close()
        self.assertEqual(self.opened().get(0, "a"), b"2")


class NamesTest(StoreCase):
    def test_names_stand_for_versions_and_are_kept(self) -> None:
        with self.made() as store:
            store.names["staging"] = store.clone(0)
            store.names["Übung_1.b-c"] = store.clone("staging")
            store.put("Übung_1.b-c", "a", "1")
            self.assertEqual(store.get(2, "a"), b"1")
            self.assertEqual(store.info("staging").parent, 0)
            store.names["staging"] = 0
        self.assertEqual(self.names_told(), ["staging 0", "Übung_1.b-c 2"])
        self.assertEqual(sorted(os.listdir(self.folder)), ["a.store", "a.store.lock", "a.store.names"])
        with self.opened() as store:
            self.assertEqual((dict(store.names), store.names.of(2)), ({"staging": 0, "Übung_1.b-c": 2}, ["Übung_1.b-c"]))
            del store.names["staging"]
            with self.assertRaises(KeyError):
                del store.names["staging"]
        with self.opened() as store:
            self.assertEqual(list(store.names), ["Übung_1.b-c"])

    def test_names_that_can_not_be_are_refused(self) -> None:
        store = self.made()
        for name in ("", "3", "a b", "-a", "@a", "a\n", "a" * 65, "a/b"):
            with self.assertRaises(errors.NameFault, msg=name):
                store.names[name] = 0
        with self.assertRaises(errors.UnknownVersion):
            store.names["later"] = 1
        with self.assertRaisesRegex(errors.UnknownName, "no version has the name staging. Names: no version has one."):
            store.get("staging", "a")
        self.assertFalse(os.path.exists(self.path + ".names"))

    def test_a_file_of_names_that_can_not_be_read_leaves_the_store_open_and_is_left_alone(self) -> None:
        self.made().close()
        cases = [(b"a 0\nb\n", "line 2 is not a name and a version"), (b"a 0 1\n", "line 1: 1 is no time"),
                 (b"0 a\n", "line 1 is not"), (b"a x\n", "line 1 is not"), (b"a 0\n\xff 0\n", "it is no text of UTF-8"),
                 (b"a 0\nb 0\na 0\n", "line 3 has the name a a second time")]
        for data, what in cases:
            self.written("a.store.names", "")
            with open(self.path + ".names", "wb") as file:
                file.write(data)
            with self.assertWarnsRegex(errors.NamesWarning, f"a.store.names: {what}.*no names until then"):
                store = self.opened()
            self.assertIn(what, store.names.warning)
            self.assertEqual((dict(store.names), store.names.of(0)), ({}, []))
            for call in (lambda: store.names.update(c=0), lambda: store.names.__delitem__("a"), lambda: store.get("a", "k")):
                with self.assertRaisesRegex(errors.NameFault, f"a.store.names: {what}"):
                    call()
            with open(self.path + ".names", "rb") as file:
                self.assertEqual(file.read(), data)
            store.put(0, "k", "v")
            self.written("a.store.names", "b 0\n")  # mended, while the store is open
            store.names["c"] = 0
            self.assertEqual(dict(store.names), {"b": 0, "c": 0})
            store.close()
        self.written("a.store.names", "\na 0\n")
        store = self.opened()
        self.assertEqual((dict(store.names), store.names.warning), ({"a": 0}, ""))
        store.close()
        os.remove(self.path + ".names")
        os.mkdir(self.path + ".names")
        with self.assertWarnsRegex(errors.NamesWarning, "a.store.names: it can't be read: Is a directory"):
            self.opened()

    def test_names_of_versions_that_are_not_there_are_left_out_before_a_clone_gets_the_number(self) -> None:
        with self.made() as store:
            store.names["base"] = 0
            for name in ("one", "two", "three", "four", "five", "six"):
                store.names[name] = store.clone(0)
        names = self.bytes_of("a.store.names")
        for call in (lambda store: store.clone(0), lambda store: store.batch().clone(0), lambda store: store.names.update(new=0)):
            os.remove(self.path)
            Store.format(self.path, 64, 1000, 10)
            self.assertFalse(os.path.exists(self.path + ".names"))
            with open(self.path + ".names", "wb") as file:
                file.write(names)
            with self.assertWarnsRegex(errors.NamesWarning, r"are left out: one 1, two 2, .*, five 5, \.\. \(6 in all\)"):
                store = self.opened()
            self.assertEqual((dict(store.names), self.bytes_of("a.store.names")), ({"base": 0}, names))
            with self.assertRaises(errors.UnknownName):
                store.get("one", "k")
            call(store)
            self.assertNotIn(b"one", self.bytes_of("a.store.names"))
            self.assertEqual(store.names.of(1), [])
            store.close()
            with self.opened() as store:
                self.assertEqual((store.names["base"], "one" in store.names), (0, False))

    def test_a_version_of_a_name_that_is_no_number_is_refused_and_nothing_written(self) -> None:
        store = self.made()
        store.names["staging"] = 0
        before = self.bytes_of("a.store.names")
        for version in (False, True, "staging", "0", b"0", None, 0.0, [0]):
            with self.assertRaisesRegex(errors.NameFault, "a.store: the version of the name prod is .*, and no number"):
                store.names["prod"] = version  # type: ignore[assignment]
        for number in (-1, 1, 2 ** 32, 2 ** 70):
            with self.assertRaises(errors.UnknownVersion):
                store.names["prod"] = number
        for name in (b"prod", 5, None):
            with self.assertRaises(errors.NameFault):
                store.names[name] = 0  # type: ignore[index]
        self.assertEqual((dict(store.names), self.bytes_of("a.store.names")), ({"staging": 0}, before))
        store.close()
        self.assertEqual(dict(self.opened().names), {"staging": 0})

    def test_one_of_two_names_of_a_version_is_removed(self) -> None:
        store = self.made()
        store.names.update(a=0, b=0, c=store.clone(0))
        del store.names["a"]
        self.assertEqual((dict(store.names), self.names_told()), ({"b": 0, "c": 1}, ["b 0", "c 1"]))

    def test_an_unknown_name_is_told_with_a_few_that_there_are(self) -> None:
        store = self.made()
        for number in range(20):
            store.names[f"name{number:02}"] = 0
        with self.assertRaises(errors.UnknownName) as caught:
            store.get("x" * 1000, "a")
        self.assertEqual(str(caught.exception), f"{self.path}: no version has the name {'x' * 70}... Names: name00, name01, "
                                                "name02, name03, name04, .. (20 in all).")

    def test_a_change_of_names_is_synced_before_and_after_it_takes_its_place(self) -> None:
        store, calls = self.made(), []

        def noted(name: str) -> None:
            real = getattr(os, name)

            def call(first: Any, *rest: Any) -> Any:
                kind = "folder" if isinstance(first, int) and stat.S_ISDIR(os.fstat(first).st_mode) else "file"
                calls.append((name, kind))
                return real(first, *rest)

            patched = mock.patch.object(os, name, call)
            patched.start()
            self.addCleanup(patched.stop)

        for name in ("fsync", "replace", "remove"):
            noted(name)
        store.names["a"] = 0
        want = [("fsync", "file"), ("replace", "file"), ("fsync", "folder")]
        self.assertEqual(calls, want)
        del store.names["a"]
        self.assertEqual(calls, want * 2)
        store.close()
        calls.clear()
        Store.format(self.path, 64, 1000, 10, overwrite=True)
        self.assertEqual(calls, [("remove", "file"), ("fsync", "folder")])

    def test_a_write_that_fails_leaves_the_names(self) -> None:
        store = self.made()
        store.names["a"] = 0
        for name in ("fsync", "replace"):
            with mock.patch.object(os, name, side_effect=OSError(28, "No space left on device")):
                with self.assertRaisesRegex(OSError, "No space left on device.*a.store.names"):
                    store.names["b"] = 0
        self.assertEqual((dict(store.names), sorted(os.listdir(self.folder))), ({"a": 0}, ["a.store", "a.store.lock", "a.store.names"]))
        store.close()
        self.assertEqual(dict(self.opened().names), {"a": 0})

    def test_the_names_keep_their_permissions_and_have_those_of_the_store_first(self) -> None:
        self.made().close()
        os.remove(self.path + ".lock")
        os.chmod(self.path, 0o660)
        with self.opened() as store:
            store.names["a"] = 0
        self.assertEqual([stat.S_IMODE(os.stat(self.path + end).st_mode) for end in (".lock", ".names")], [0o660, 0o660])
        os.chmod(self.path + ".names", 0o640)
        with self.opened() as store:
            store.names["b"] = 0
        self.assertEqual(stat.S_IMODE(os.stat(self.path + ".names").st_mode), 0o640)


class DeviceTest(StoreCase):
    def test_a_full_device_is_told_and_what_was_acknowledged_is_there(self) -> None:
        if not hasattr(resource, "prlimit"):
            self.skipTest("no prlimit here")
        store = self.made()
        # every write behind so many bytes of the file fails, as on a full device
        resource.prlimit(store.pid, resource.RLIMIT_FSIZE, (10000, 10000))
        done = 0
        with self.assertRaises(errors.DeviceFault) as caught:
            for done in range(100):
                store.put(0, f"{done}", b"v" * 100)
        self.assertEqual(caught.exception.command, f"put {done} at version 0")
        self.assertGreater(done, 3)
        with self.assertRaises(errors.DeviceFailed) as ended:
            store.get(0, "0")
        self.assertEqual(ended.exception.status, 5)
        store.close()
        store = self.opened()
        self.assertIn(store.stat().changes, (done, done + 1))
        self.assertEqual([store.get(0, f"{number}") for number in range(done)], [b"v" * 100] * done)
        store.put(0, "more", b"v")
