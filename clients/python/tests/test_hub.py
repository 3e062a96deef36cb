"""The hub: what its clients are answered, and what none of them can do to another."""

import gc
import os
import random
import resource
import signal
import socket
import struct
import time
from pathlib import Path
from typing import List, Tuple
from unittest import mock

import test_batch
import test_mapping
import test_scan
import test_store
import test_threads
from hubs import PATIENCE, HubCase, OverHub, Raw, Reply, child_of, has_come, puts
from support import in_child, quiet, stop
from test_interrupts import interrupted

from castle import Stat, Store, backup, errors, frames, salvage
from castle.hubclient import BUDGET, SHARE, UNREAD
from castle.process import find_program

MALFORMED = errors.Malformed.status
FOUND, DONE, OPENED = frames.FOUND, frames.DONE, frames.OPENED


def found(value: bytes) -> bytes:
    """The fields of a reply Found."""
    return struct.pack(">H", len(value)) + value


class FramesTest(HubCase):
    """Clients that speak frames by hand."""

    def test_each_client_gets_its_own_replies_under_its_own_tags(self) -> None:
        self.served()
        clients = [self.raw() for _ in range(5)]
        for number, client in enumerate(clients):
            client.send(frames.put(7, 0, b"%d" % number, b"of %d" % number))
        for number, client in enumerate(clients):
            client.send(*(frames.get(tag, 0, b"%d" % number) for tag in (7, 7, 0, 2 ** 32 - 1)))
        for number, client in enumerate(clients):
            want = [Reply(7, DONE), *(Reply(tag, FOUND, found(b"of %d" % number)) for tag in (7, 7, 0, 2 ** 32 - 1))]
            self.assertEqual(client.replies(5), want)

    def test_replies_come_in_the_order_of_commands_whatever_these_are(self) -> None:
        self.served()
        client, chance = self.raw(), random.Random(1)
        kinds: List[Tuple[bytes, Reply]] = [
            (frames.put(11, 0, b"a", b"1"), Reply(11, DONE)), (frames.get(12, 0, b"a"), Reply(12, FOUND, found(b"1"))),
            (frames.get(13, 9, b"a"), Reply(13, 16)), (frames.get(14, 0, b""), Reply(14, 23)), (frames.get(15, 0, b"b"), Reply(15, 2)),
            (frames.scan(16, 0, b"", b"", 257), Reply(16, 25)), (frames.scan(17, 0, b"b", b"", 256), Reply(17, 3, b"\0\0\0")),
            (struct.pack(">I", 0), Reply(0, MALFORMED)), (struct.pack(">I3s", 3, b"abc"), Reply(0, MALFORMED)),
            (struct.pack(">I4s", 4, b"abcd"), Reply(0x61626364, MALFORMED)), (struct.pack(">IIB", 5, 18, 200), Reply(18, MALFORMED)),
            (struct.pack(">IIBI", 9, 19, frames.NEXT_PAIRS, 1), Reply(19, MALFORMED)),
            (frames.close_cursor(20, 0), Reply(20, 18)), (struct.pack(">I", 2048) + bytes(2048), Reply(0, MALFORMED)),
        ]
        client.send(kinds[0][0])
        self.assertEqual(client.reply(), kinds[0][1])
        drawn = [chance.choice(kinds) for _ in range(3000)]
        sent = b"".join(frame for frame, _ in drawn)
        while sent:  # in pieces that are no frames
            size = chance.randrange(1, 3000)
            client.send(sent[:size])
            sent = sent[size:]
        client.end()
        self.assertEqual(client.replies(len(drawn) + 1), [*(reply for _, reply in drawn), None])

    def test_a_frame_that_is_cut_off_changes_nothing_and_harms_nobody(self) -> None:
        self.served()
        other = self.client()
        frame = frames.put(1, 0, b"key", b"value")
        for size in range(len(frame)):
            client = Raw(self.socket)
            client.send(frames.put(2, 0, b"%d" % size, b""), frame[:size])
            if size % 2:
                client.end()
                self.assertEqual(client.replies(2), [Reply(2, DONE), None])
            client.close()
        while other.stat().changes < len(frame):
            time.sleep(0.01)
        self.assertEqual(other.get(0, "key"), None)
        self.assertEqual(self.ended(signal.SIGTERM), (0, ""))

    def test_a_frame_that_is_too_long_ends_the_connection_of_its_client_alone(self) -> None:
        self.served()
        other, client = self.client(), self.raw()
        for length in (2049, 2 ** 31, 2 ** 32 - 1):
            client = self.raw()
            client.send(puts(100), struct.pack(">I", length), frames.get(1, 0, b"0") * 100)
            self.assertEqual(client.replies(102), [*(Reply(tag, DONE) for tag in range(1, 101)), Reply(0, 26), None])
        self.assertEqual(other.get(0, "99"), b"value 99")
        store = self.client()
        self.assertIsInstance(store._program.ask(lambda: struct.pack(">I", 2049)), errors.FrameTooLong)
        with self.assertRaises(errors.HubGone):
            store.get(0, "a")
        self.assertEqual(other.stat().changes, 300)

    def test_input_that_ends_is_answered_whole(self) -> None:
        self.served()
        client = self.raw()
        client.send(puts(500), frames.get(501, 0, b"499"))
        client.end()
        self.assertEqual(client.replies(502), [*(Reply(tag, DONE) for tag in range(1, 501)), Reply(501, FOUND, found(b"value 499")), None])

    def test_a_client_that_never_reads_holds_nobody_up_and_takes_bounded_memory(self) -> None:
        hub = self.served()
        other, client = self.client(), self.raw()
        with other.batch() as batch:
            for number in range(300):
                batch.put(0, b"%03d" % number, b"v" * 1024)
        page = other.page(0)
        before, scans = resident(hub.pid), 100
        self.assertGreater(scans * len(b"".join(value for _, value in page.pairs)), 20 * (BUDGET + UNREAD))
        client.send(frames.scan(1, 0, b"", b"", 256) * scans)
        for number in range(200):
            other.put(0, "k", str(number))
            self.assertEqual(other.get(0, "k"), b"%d" % number)
        self.assertLess(resident(hub.pid) - before, 8 * (BUDGET + UNREAD))
        for _ in range(scans):
            reply = client.reply()
            assert reply
            self.assertEqual((reply.tag, reply.status, frames.page(reply.fields)), (1, frames.PAIRS, page))
        self.assertEqual(other.get(0, "k"), b"199")

    def test_a_client_that_sends_without_end_leaves_others_their_turn(self) -> None:
        hub = self.served()
        other, client, program = self.raw(), self.raw(), child_of(hub.pid)
        for each in (other, client):
            each.ask(frames.stat(1))
        frame, most = frames.put(2, 0, b"busy", b"v"), BUDGET // SHARE
        client.socket.setblocking(False)
        stop(program)
        with self.assertRaises(BlockingIOError):
            while True:
                client.socket.send(frame)
        self.assertTrue(has_come(program, most * len(frame)))
        other.send(frames.stat(3))
        self.assertTrue(has_come(program, most * len(frame) + len(frames.stat(3))))
        os.kill(program, signal.SIGCONT)
        # it waited for those that the busy client had under way, and for no more of them
        self.assertEqual(other.reply(), Reply(3, frames.COUNTS, struct.pack(">IIII", 1, most, most, 0)))


def frames_of(sent: bytes) -> List[bytes]:
    """The bodies of frames."""
    bodies = []
    while sent:
        size = int.from_bytes(sent[:4], "big")
        bodies.append(sent[4:4 + size])
        sent = sent[4 + size:]
    return bodies


def resident(pid: int) -> int:
    """Bytes of memory that a process has."""
    with open(f"/proc/{pid}/statm", encoding="ascii") as file:
        return int(file.read().split()[1]) * resource.getpagesize()


class CursorsTest(HubCase):
    """Cursors, of which the program has 64 for all clients."""

    def opened_by(self, client: Raw, count: int) -> List[bytes]:
        """The numbers of new cursors of a client."""
        client.send(*(frames.open_cursor(tag, 0, b"", b"") for tag in range(count)))
        replies = client.replies(count)
        self.assertEqual([(it.tag, it.status) for it in replies if it], [(tag, OPENED) for tag in range(count)])
        return [it.fields for it in replies if it]

    def until_none_is_open(self, store: Store) -> None:
        deadline = time.monotonic() + PATIENCE
        while store.stat().cursors:
            self.assertLess(time.monotonic(), deadline, "cursors are open still")
            time.sleep(0.01)

    def test_cursors_of_a_client_that_goes_are_closed(self) -> None:
        self.served()
        other = self.client()
        for leave in ("close", "end", "shutdown", "half a frame", "too long"):
            client = self.raw()
            self.opened_by(client, 64)
            with self.assertRaises(errors.CursorLimit):
                other.scan(0)
            if leave == "end":
                client.end()
                self.assertIsNone(client.reply())
            elif leave == "shutdown":
                client.socket.shutdown(socket.SHUT_RDWR)
            elif leave == "half a frame":
                client.send(frames.stat(1)[:7])
                client.close()
            elif leave == "too long":
                client.send(b"\xff" * 4)
            else:
                client.close()
            self.until_none_is_open(other)

    def test_cursors_that_are_opened_for_a_client_which_is_gone_are_closed(self) -> None:
        hub = self.served()
        other, client, program = self.client(), self.raw(), child_of(hub.pid)
        stop(program)
        frame = frames.open_cursor(1, 0, b"", b"")
        client.send(frame * 50)
        self.assertTrue(has_come(program, 50 * len(frame)))
        client.close()
        os.kill(program, signal.SIGCONT)
        self.until_none_is_open(other)
        self.assertEqual(len([other.scan(0) for _ in range(64)]), 64)

    def test_a_client_meets_no_cursor_of_another_one(self) -> None:
        self.served()
        one, two = self.raw(), self.raw()
        one.send(puts(3))
        one.replies(3)
        number = int.from_bytes(self.opened_by(one, 1)[0], "big")
        for command in (frames.next_pairs(5, number, 1), frames.close_cursor(5, number)):
            self.assertEqual(two.ask(command), Reply(5, errors.UnknownCursor.status))
        self.assertEqual(two.ask(frames.next_pairs(5, number, 0)), Reply(5, errors.ScanSize.status))
        reply = one.ask(frames.next_pairs(6, number, 256))
        assert reply
        self.assertEqual(len(frames.page(reply.fields).pairs), 3)
        self.assertEqual(one.ask(frames.close_cursor(7, number)), Reply(7, DONE))
        self.assertEqual(one.ask(frames.close_cursor(8, number)), Reply(8, errors.UnknownCursor.status))

    def test_no_cursor_is_closed_that_its_client_has_closed(self) -> None:
        copied = os.path.join(self.folder, "frames")
        stub = self.written("stub", f'#!/bin/sh\n[ "$1" = serve ] || exec "{find_program()}" "$@"\n'
                                    f'tee "{copied}" | "{find_program()}" "$@"\n')
        os.chmod(stub, 0o755)
        with mock.patch.dict(os.environ, CASTLE_PROGRAM=stub):
            self.served()
        client = self.raw()
        for number in self.opened_by(client, 50):
            self.assertEqual(client.ask(frames.close_cursor(1, int.from_bytes(number, "big"))), Reply(1, DONE))
        self.opened_by(client, 3)
        client.close()
        self.until_none_is_open(self.client())
        self.assertEqual(self.ended(signal.SIGTERM), (0, ""))
        closings = [body for body in frames_of(self.bytes_of("frames")) if body[4] == frames.CLOSE_CURSOR]
        self.assertEqual(len(closings), 53)

    def test_scans_that_are_dropped_by_clients_which_go_on_are_closed(self) -> None:
        self.served()
        one, two = self.client(), self.client()
        one.put(0, "a", "1")
        scans = [one.scan(0) for _ in range(30)]
        self.assertEqual(two.stat().cursors, 30)
        del scans
        self.assertEqual((one.stat().cursors, two.stat().cursors), (0, 0))


class InterfaceTest(HubCase):
    """A store over a hub is used as one over a file."""

    def test_what_is_not_over_a_hub_is_refused_by_name(self) -> None:
        self.served()
        store = self.client()
        calls = (store.levels, lambda: store.names["a"], lambda: store.names.update(a=0), lambda: store.names.__delitem__("a"),
                 lambda: store.get("a", "k"), lambda: store.clone("a"), lambda: store.at("a"), lambda: "a" in store.names,
                 lambda: Store.format(self.address, 4, 10, 10), lambda: Store.format(os.fsencode(self.address), 4, 10, 10),
                 lambda: Store(self.address, read_only=True), lambda: Store(self.address, "castle"),
                 lambda: store.snapshot("a", "b"), lambda: store.release("a", "b"),
                 lambda: store.dump_all(os.path.join(self.folder, "dump")), lambda: store.load_all(__file__),
                 store.verdict, lambda: store.salvage("b.store"), lambda: salvage(self.address, "b.store"),
                 lambda: store.backup(self.address), lambda: backup(self.path, self.address))
        for call in calls:
            with self.assertRaisesRegex(errors.NotOverHub, f"^{self.address}: .*can't be had over a hub. [A-Z]"):
                call()
        self.assertEqual((store.stat(), dict(store.names), store.names.of(0)), (Stat(1, 0, 0, 0), {}, []))
        self.assertIn("names can't be had over a hub", store.names.warning)
        self.assertEqual(sorted(os.listdir(self.folder)), ["a.store", "a.store.lock", "socket"])

    def test_an_address_without_a_hub_is_refused_by_name(self) -> None:
        cases = [("unix:", "has no path"), ("unix:a\0b", "has no path"), (self.address, "there is no such socket"),
                 (f"unix:{self.folder}", "no hub listens there"), (f"unix:{self.written('plain', '')}", "no hub listens there"),
                 ("unix:" + "x" * 200, "too long")]
        for address, what in cases:
            with self.assertRaisesRegex(errors.NoHub, what):
                Store(address)
        left = socket.socket(socket.AF_UNIX)
        left.bind(self.socket)
        with self.assertRaisesRegex(errors.NoHub, f"{self.address}: no hub listens there. Look at the address"):
            Store(self.address)
        left.close()
        with self.assertRaises(errors.StoreMissing):  # a path is a file's
            Store(Path(self.address))

    def test_a_child_is_refused_and_the_connection_stays(self) -> None:
        self.served()
        store = self.client()
        store.put(0, "a", "1")
        scan = store.scan(0)

        connection = os.fstat(store._program.process.out).st_ino

        def refused() -> None:
            open_files = [os.stat(f"/proc/self/fd/{name}").st_ino for name in os.listdir("/proc/self/fd")
                          if os.path.exists(f"/proc/self/fd/{name}")]
            assert connection not in open_files, "the child has the connection"
            for call in (lambda: store.get(0, "a"), lambda: store.put(0, "a", "2"), lambda: next(scan), store.stat):
                try:
                    call()
                except errors.Forked:
                    pass
                else:
                    raise AssertionError("it was taken")
            store.close()

        self.assertEqual(os.waitpid(in_child(refused), 0)[1], 0)
        self.assertEqual((store.get(0, "a"), list(scan), store.stat()), (b"1", [(b"a", b"1")], Stat(1, 1, 1, 0)))

    def test_a_store_that_nobody_closed_gives_its_cursors_back(self) -> None:
        self.served()
        other = self.client()
        with self.assertWarnsRegex(ResourceWarning, f"unclosed store {self.address}"):
            store = Store(self.address)
            scan = store.scan(0)
            self.assertEqual(other.stat().cursors, 1)
            del store, scan
        self.assertEqual(other.stat().cursors, 0)

    def test_differences_have_what_other_clients_changed(self) -> None:
        self.served()
        one, other = self.client(), self.client()
        made = one.clone(0)
        one.put(made, "a", "1")
        other.put(made, "b", "2")
        for store in (one, other):
            self.assertEqual([tuple(found) for found in store.diff(0, made)], [(b"a", None, b"1"), (b"b", None, b"2")])

    def test_the_shell_speaks_over_a_hub(self) -> None:
        self.served()
        out, said, status = self.shell("put a 1\nclone\nput a 2 @1\ndiff 0 1\nclone staging\n", path=self.address)
        self.assertEqual((out, status), ("done\nmade version 1\ndone\n~ a = 1 -> 2\n0 removed, 0 added, 1 changed\n", 1))
        self.assertIn(f"castle-shell: {self.address}: names can't be had over a hub; versions go by their numbers\n", said)
        self.assertIn("line 5: ", said)
        self.assertEqual(self.client().stat(), Stat(2, 2, 3, 0))



class StepsOverHubTest(HubCase):
    """Interrupts between any two steps of the client over a hub."""

    def setUp(self) -> None:
        super().setUp()
        quiet(self)
        self.served()
        self.other = self.client()

    def test_a_get_over_a_hub_that_is_interrupted_at_any_step_leaves_the_store_open(self) -> None:
        store = self.client()
        store.put(0, "a", "1")
        store.put(0, "b", "2")
        at = 1
        while interrupted(lambda: store.get(0, "a"), at, "program hubstore commands frames"):
            self.assertEqual((store.get(0, "b"), store.get(0, "c")), (b"2", None), f"at {at}")
            at += 1
        self.assertGreater(at, 50)

    def test_a_close_over_a_hub_that_is_interrupted_at_any_step_may_be_done_again(self) -> None:
        at, has_come = 1, True
        while has_come:
            store = Store(self.address)
            scan = store.scan(0)
            has_come = interrupted(store.close, at, "store program hubstore")
            store.close()
            for call in (store.stat, lambda: next(scan)):
                with self.assertRaises(errors.StoreClosed):
                    call()
            self.assertEqual(self.other.stat().cursors, 0, f"at {at}")
            at += 2
        self.assertGreater(at, 30)

    def test_an_opening_over_a_hub_that_is_interrupted_at_any_step_leaves_no_connection(self) -> None:
        at, before = 1, os.listdir("/proc/self/fd")
        while interrupted(lambda: Store(self.address).close(), at, "store program hubstore hubsocket"):
            gc.collect()
            self.assertEqual(os.listdir("/proc/self/fd"), before, f"at {at}")
            at += 5
        self.assertGreater(at, 60)


class CommandsOverHubTest(OverHub, test_store.CommandsTest):
    """Those of a file over a hub; so are the classes below. What has names, levels or the program's number is left out."""

    test_a_closed_store_says_so = None
    test_format_leaves_a_file_alone_unless_told_to = None


class ScansOverHubTest(OverHub, test_scan.ScanTest):
    test_a_mapping_may_be_changed_while_it_is_read = None  # this one and the next are slow, and others are like them
    test_a_version_may_be_changed_by_what_a_scan_of_it_finds = None
    test_a_scan_shows_the_moment_of_its_call_while_the_version_is_changed_and_published = None
    test_a_version_is_a_mapping = None


class BatchOverHubTest(OverHub, test_batch.BatchTest):
    test_what_the_package_refuses_is_among_the_results = None
    test_a_batch_that_is_filled_behind_the_end_of_the_program_is_told = None
    test_a_program_killed_amid_a_batch_loses_nothing_acknowledged = None


class ViewOverHubTest(OverHub, test_mapping.ViewTest):
    pass


class ThreadsOverHubTest(OverHub, test_threads.ThreadsTest):
    test_names_of_threads_are_all_kept = None
    test_a_program_that_is_killed_is_told_to_each_thread = None
    test_many_stores_are_opened_and_dropped_by_threads = None
