"""How a hub begins and ends: its socket, its lock, its signals, and what its clients are told of its end."""

import contextlib
import fcntl
import io
import os
import resource
import signal
import socket
import struct
import subprocess
import sys
import time
from typing import Any
from unittest import mock

from hubs import HUB, PATIENCE, HubCase, Raw, Reply, child_of, has_come, puts
from support import PRETENDER, Threads, is_gone, stop, unprivileged

from castle import Store, errors, frames, hub
from castle.errors import CastleError
from castle.hubsocket import Listening

UNANSWERED = errors.Unanswered.status


class SocketTest(HubCase):
    def test_the_socket_has_the_mode_that_is_asked_for(self) -> None:
        before = os.umask(0o777)
        self.addCleanup(os.umask, before)
        for options, mode in (((), 0o600), (("--mode", "660"), 0o660), (("--mode", "0777"), 0o777), (("--mode=000",), 0)):
            os.umask(before)
            self.served(*options)
            self.assertEqual(self.mode(), mode)
            self.assertEqual(self.ended(signal.SIGTERM), (0, ""))
            self.assertEqual(sorted(os.listdir(self.folder)), ["a.store", "a.store.lock"])

    def test_a_user_without_the_permission_is_refused_by_name(self) -> None:
        os.chmod(self.folder, 0o755)
        self.served("--mode", "600")
        with unprivileged():
            if os.access(self.socket, os.W_OK, effective_ids=True):
                self.skipTest("this user is the one who runs the hub")
            with self.assertRaisesRegex(errors.NoHub, "the socket may not be used: Permission denied. Ask whoever runs the hub"):
                Store(self.address)

    def test_a_socket_on_which_nobody_listens_is_replaced(self) -> None:
        self.served()
        self.ended(signal.SIGKILL)
        self.assertIn("socket", os.listdir(self.folder))
        with self.assertRaisesRegex(errors.NoHub, "no hub listens there"):
            Store(self.address)
        self.served("--mode", "640")
        self.assertEqual(self.mode(), 0o640)
        self.client().put(0, "a", "1")

    def test_a_socket_on_which_a_hub_listens_stays_and_so_does_the_hub(self) -> None:
        self.served()
        store = self.client()
        other = os.path.join(self.folder, "b.store")
        Store.format(other, 4, 10, 10)
        said = self.refused(other, self.socket)
        self.assertEqual(said, f"castle-hub: {self.socket}: a hub or another program listens there already. "
                               "Name another path for the socket.\n")
        store.put(0, "a", "1")
        self.assertEqual(self.client().get(0, "a"), b"1")
        Store(other).close()

    def test_what_is_no_socket_of_a_hub_is_left_alone(self) -> None:
        Store.format(self.path, 4, 10, 10)
        plain, linked = self.written("plain", "text"), os.path.join(self.folder, "linked")
        os.symlink("nowhere", linked)
        for path in (plain, linked, self.folder, self.path):
            with self.assertRaisesRegex(errors.SocketFault, f"{path}: a file that is no socket is there, and stays as it is"):
                Listening(path, 0o600)
        self.assertIn("no socket", self.refused(self.path, self.path))
        datagrams = socket.socket(socket.AF_UNIX, socket.SOCK_DGRAM)
        self.addCleanup(datagrams.close)
        datagrams.bind(self.socket)
        with self.assertRaisesRegex(errors.SocketFault, "of which can't be told whether anybody listens"):
            Listening(self.socket, 0o600)
        for path, what in (("x" * 108, "has 1 to 107 bytes, and this one has 108"), ("", "and this one has 0"),
                           (os.path.join(self.folder, "none", "s"), "the socket can't be made: No such file or directory")):
            with self.assertRaisesRegex(errors.SocketFault, what):
                Listening(path, 0o600)
        self.assertEqual((self.bytes_of("plain"), os.readlink(linked)), (b"text", "nowhere"))
        self.opened()

    def test_the_path_of_a_socket_may_have_any_bytes(self) -> None:
        Store.format(self.path, 4, 10, 10)
        path = os.fsencode(self.folder) + b"/\xff \n"
        with subprocess.Popen([sys.executable, HUB, self.path, path], stdout=subprocess.PIPE) as hub:
            assert hub.stdout
            self.assertEqual(hub.stdout.read(len(path) + len(self.path) + 32)[-len(path) - 1:], path + b"\n")
            with Store(b"unix:" + path) as store:
                store.put(0, "a", "1")
            hub.terminate()
        self.assertEqual(hub.returncode, 0)

    def test_a_socket_that_another_one_has_replaced_is_not_removed(self) -> None:
        self.served()
        os.remove(self.socket)
        self.written("socket", "another's")
        self.assertEqual(self.ended(signal.SIGTERM), (0, ""))
        self.assertEqual(self.bytes_of("socket"), b"another's")

    def test_nobody_looks_at_a_stale_socket_while_another_one_replaces_it(self) -> None:
        folder = os.open(self.folder, os.O_RDONLY)
        self.addCleanup(os.close, folder)
        fcntl.flock(folder, fcntl.LOCK_EX)
        with mock.patch("castle.hubsocket.PATIENCE", 0.1), \
                self.assertRaisesRegex(errors.SocketFault, "another program has the folder of the socket locked"):
            Listening(self.socket, 0o600)
        self.assertFalse(os.path.exists(self.socket))
        fcntl.flock(folder, fcntl.LOCK_UN)
        Listening(self.socket, 0o600).close()

    def test_two_hubs_that_begin_at_once_at_a_stale_socket_are_one(self) -> None:
        paths = [os.path.join(self.folder, f"{number}.store") for number in range(4)]
        for path in paths:
            Store.format(path, 4, 10, 10)
        stale = socket.socket(socket.AF_UNIX)
        stale.bind(self.socket)
        stale.close()
        hubs = [self.started(path, self.socket) for path in paths]
        lines = [it.stdout.readline() for it in hubs if it.stdout]
        self.assertEqual(len([line for line in lines if "is served at" in line]), 1, lines)
        Store(self.address).close()


class BeginningTest(HubCase):
    def test_a_second_hub_on_a_store_is_refused_by_its_lock(self) -> None:
        hub = self.served()
        link = os.path.join(self.folder, "link")
        os.link(self.path, link)
        other = os.path.join(self.folder, "other")
        said = self.refused(self.path, other)
        self.assertEqual(said, f"castle-hub: {self.path}: the store is open already, by process {hub.pid}. "
                               "Close it there first; two programs on one file would destroy it.\n")
        self.assertIn("open already under another name", self.refused(link, other))
        with self.assertRaises(errors.StoreLocked):
            Store(self.path)
        self.client().put(0, "a", "1")
        self.assertFalse(os.path.exists(other))

    def test_what_can_not_be_served_is_refused_by_name(self) -> None:
        foreign, wrong = self.written("foreign", "x" * 10000), self.address
        for path, what in ((self.path, "there is no such file"), (foreign, "the file is no store"), (self.folder, "it is a folder"),
                           (wrong, "a hub serves no other hub")):
            self.assertRegex(self.refused(path, self.socket), f"^castle-hub: {path}: .*{what}")
        self.assertFalse(os.path.exists(self.socket))
        Store.format(self.path, 4, 10, 10)
        with mock.patch("castle.store._is_writable", return_value=False), \
                self.assertRaisesRegex(errors.ReadOnly, "the file can't be written, and a hub serves no copy"):
            hub.opened(self.path)

    def test_wrong_words_are_refused(self) -> None:
        self.made().close()
        for words in ([], [self.path], [self.path, self.socket, "more"], ["--mode", "9", self.path, self.socket],
                      ["--mode", "1777", self.path, self.socket], ["--mode", "rw", self.path, self.socket],
                      ["--clients", "0", self.path, self.socket], ["--clients", "x", self.path, self.socket], ["--what"]):
            said = io.StringIO()
            with contextlib.redirect_stderr(said), self.assertRaises(SystemExit) as caught:
                hub.main(words)
            self.assertEqual((caught.exception.code, said.getvalue()[:17]), (2, "usage: castle-hub"))
        self.assertEqual(self.started("--help").wait(), 0)
        self.assertFalse(os.path.exists(self.socket))

    def test_names_of_versions_that_are_not_there_leave_their_file_before_a_clone(self) -> None:
        Store.format(self.path, 4, 10, 10)
        self.written("a.store.names", "base 0\nstray 1\n")
        self.served()
        self.assertEqual(self.client().clone(0), 1)
        status, said = self.ended(signal.SIGTERM)
        self.assertEqual((status, self.bytes_of("a.store.names")), (0, b"base 0\n"))
        self.assertIn("names of versions that the store doesn't have are left out: stray 1", said)

    def test_one_client_too_many_is_refused_by_name(self) -> None:
        self.served("--clients", "2")
        one, _ = self.client(), self.client()
        for _ in range(3):
            with self.assertRaisesRegex(errors.HubFull, f"{self.address}: open: the hub has as many clients as it takes. End another"):
                Store(self.address)
        raw = self.raw()
        self.assertEqual((raw.ask(frames.stat(7)), raw.reply()), (Reply(0, errors.HubFull.status), None))
        one.close()
        deadline = time.monotonic() + PATIENCE
        while True:
            try:
                self.client().stat()
                break
            except errors.HubFull:
                self.assertLess(time.monotonic(), deadline)

    def test_clients_that_the_system_has_no_files_for_are_refused(self) -> None:
        with self.assertRaisesRegex(CastleError, "and 10000000 are needed. Take fewer clients"):
            hub.allow_files(10000000)


class EndTest(HubCase):
    def waiting(self, *frames_sent: bytes) -> Any:
        """Clients, each of which waits for the reply to a frame, and the program, which has these frames and stands still."""
        program, size = child_of(self.hub.pid), 0
        clients = [self.raw() for _ in frames_sent]
        for client in clients:
            client.ask(frames.stat(1))
        stop(program)
        for client, frame in zip(clients, frames_sent):
            client.send(frame)
            size += len(frame)
        self.assertTrue(has_come(program, size))
        return program, clients

    def until_nobody_listens(self) -> None:
        """Waits until the hub has taken a signal, while its program stands still."""
        deadline = time.monotonic() + PATIENCE
        with self.assertRaises(ConnectionRefusedError):
            while time.monotonic() < deadline:
                Raw(self.socket).close()
                time.sleep(0.01)

    def test_what_was_taken_before_a_signal_is_answered(self) -> None:
        for number in (signal.SIGTERM, signal.SIGINT, signal.SIGHUP):
            if signal.getsignal(number) is signal.SIG_IGN:  # as SIGHUP is under nohup, and then the hub ignores it too
                continue
            self.served()
            idle = self.client()
            program, clients = self.waiting(*(frames.put(5, 0, b"%d" % client, b"v") for client in range(10)))
            self.hub.send_signal(number)
            self.until_nobody_listens()
            os.kill(program, signal.SIGCONT)
            self.assertEqual([client.replies(2) for client in clients], [[Reply(5, 0), None]] * 10)
            self.assertEqual(self.ended(), (0, ""))
            with self.assertRaisesRegex(errors.HubGone, f"{self.address}: get a at version 0: the hub ended, or closed the conn"):
                idle.get(0, "a")
            with self.opened() as store:
                self.assertEqual([store.get(0, str(client)) for client in range(10)], [b"v"] * 10)

    def test_a_client_that_does_not_read_keeps_no_hub_from_ending(self) -> None:
        self.served()
        store = self.client()
        with store.batch() as batch:
            for number in range(300):
                batch.put(0, b"%03d" % number, b"v" * 1024)
        client = self.raw()
        client.send(frames.scan(1, 0, b"", b"", 256) * 100)
        time.sleep(0.2)
        started = time.monotonic()
        self.assertEqual(self.ended(signal.SIGTERM), (0, ""))
        self.assertLess(time.monotonic() - started, 20)

    def test_a_second_signal_waits_for_no_program(self) -> None:
        self.served()
        program, _ = self.waiting(frames.put(5, 0, b"a", b"1"))
        self.hub.send_signal(signal.SIGTERM)
        self.until_nobody_listens()
        self.assertIsNone(self.hub.poll())
        status, said = self.ended(signal.SIGTERM)
        self.assertEqual(status, 128 + signal.SIGKILL)
        self.assertIn("the program was ended by SIGKILL", said)
        self.assertTrue(is_gone(program))
        self.opened()

    def test_a_program_that_is_killed_is_told_to_each_client_that_waits(self) -> None:
        self.served()
        store, idle = self.client(), self.client()
        program, clients = self.waiting(*(frames.put(tag, 0, b"%d" % tag, b"v") for tag in range(3)))
        waiting = Threads(lambda: store.put(0, "waits", "1"))
        self.assertTrue(has_come(program, sum(len(frames.put(tag, 0, b"0", b"v")) for tag in range(3)) + 1))
        os.kill(program, signal.SIGKILL)
        told = waiting.join()
        cause = 128 + signal.SIGKILL
        self.assertEqual([client.replies(2) for client in clients],
                         [[Reply(tag, UNANSWERED, struct.pack(">H", cause)), None] for tag in range(3)])
        self.assertEqual([str(error) for error in told],
                         [f"{self.address}: put waits at version 0: the hub's program was ended by SIGKILL before it answered; a change "
                          f"was made or it was not. {errors.Unanswered.remedy}"])
        self.assertEqual([(type(error), getattr(error, "cause")) for error in told], [(errors.Unanswered, cause)])
        for gone in (store, idle):
            for _ in range(2):
                with self.assertRaises(errors.HubGone):
                    gone.get(0, "a")
        status, said = self.ended()
        self.assertEqual(status, cause)
        self.assertRegex(said, f"^castle-hub: {self.path}: the program was ended by SIGKILL. All that was acknowledged")
        self.assertIn(self.opened().stat().changes, range(5))

    def test_a_device_fault_is_told_to_its_command_and_ends_the_hub_with_its_status(self) -> None:
        if not hasattr(resource, "prlimit"):
            self.skipTest("no prlimit here")
        self.served()
        store, other = self.client(), self.client()
        other.put(0, "other", "1")
        resource.prlimit(child_of(self.hub.pid), resource.RLIMIT_FSIZE, (10000, 10000))
        done = 0
        with self.assertRaises(errors.DeviceFault):
            for done in range(100):
                store.put(0, f"{done}", b"v" * 100)
        for gone in (store, other):  # the hub may take the command before it sees that its program has ended
            with self.assertRaises((errors.HubGone, errors.Unanswered)):
                gone.get(0, "other")
        status, said = self.ended()
        self.assertEqual(status, 5)
        self.assertIn("the file or its folder could not be opened, read, written or synced", said)
        with self.opened() as store:
            self.assertIn(store.stat().changes, (done + 1, done + 2))
            self.assertEqual(store.get(0, "other"), b"1")

    def test_a_hub_that_is_killed_is_told_and_frees_the_store(self) -> None:
        self.served()
        store = self.client()
        store.put(0, "a", "1")
        program = child_of(self.hub.pid)
        self.assertEqual(self.ended(signal.SIGKILL)[0], -signal.SIGKILL)
        with self.assertRaisesRegex(errors.HubGone, "put b at version 0: .*a change without a reply was made or it was not"):
            store.put(0, "b", "1")
        with self.assertRaises(errors.HubGone):
            store.stat()
        store.close()
        self.assertTrue(is_gone(program))
        self.served()
        self.assertEqual((self.client().get(0, "a"), self.client().get(0, "b")), (b"1", None))

    def test_a_batch_over_a_hub_that_is_killed_loses_nothing_acknowledged(self) -> None:
        self.served()
        store = self.client()
        batch = store.batch(return_exceptions=True)
        with self.assertRaises(errors.HubGone):
            for number in range(100000):
                batch.put(0, b"%d" % (number % 1000), b"%d" % number)
                if number == 3000:
                    self.hub.kill()
        done = len([result for result in batch.results if result is None])
        self.hub.wait()
        deadline = time.monotonic() + PATIENCE
        while True:
            try:
                again = Store(self.path)
                break
            except errors.StoreLocked:
                self.assertLess(time.monotonic(), deadline)
        self.assertGreaterEqual(again.stat().changes, done)
        again.close()

    def test_a_program_of_another_kind_ends_the_hub(self) -> None:
        self.path = self.written("pretended", "tag")
        with mock.patch.dict(os.environ, CASTLE_PROGRAM=PRETENDER):
            self.served()
        client = self.raw()
        client.send(puts(2))
        self.assertEqual(client.replies(3), [Reply(1, UNANSWERED, b"\0\0"), Reply(2, UNANSWERED, b"\0\0"), None])
        status, said = self.ended()
        self.assertEqual(status, 1)
        self.assertIn("a reply is to no command; it is not castle, or of another build", said)
