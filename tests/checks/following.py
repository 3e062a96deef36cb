"""Leaders and followers: what they write byte for byte, and copies that stay the leader's table after a prefix, whatever is lost."""

import copy
import os
import random
import select
import subprocess
import time

import formats
import model
import replicas
from checks.calls import each_call, faults_of, status_of
from faulty import COMMANDS, EARLIER, Rig, made_over
from model import bodies_of, frame, put
from program import (
    DEADLINE, GET_A, PIPES, PROGRAM, PUT_A, StoreFile, bytes_of, close, complaint, expect, expect_alike, expect_sound, expect_told, fed,
    hexed, in_memory, run)
from samples import BATCH_MAX, drawn_frames, drawn_over
from tracing import calls_of

CHANGE_A = hexed("0000000e 00000000 01 00000000 01 61 0001 31")
KILLS = 200
FOLLOWERS = 3


def followed(store, pieces):
    """What a follower gives over a file, compared with the model, and the file with that."""
    name = f"follow, {b''.join(pieces)[:40].hex()}"
    want, status = replicas.follow(store.model, b"".join(pieces))
    expect(name, fed([PROGRAM, "follow", store.path], pieces), (want, status, complaint(status)))
    store.expect_bytes(name)
    return want


def led(store, pieces):
    """The same of a leader."""
    name = f"lead, {b''.join(pieces)[:40].hex()}"
    want, status = replicas.lead(store.model, formats.read(bytes_of(store.path)), b"".join(pieces))
    expect(name, fed([PROGRAM, "lead", store.path], pieces), (want, status, complaint(status)))
    store.expect_bytes(name)
    return want


# Bytes

def a_follower_answers_each_change_with_what_it_waits_for(folder):
    store = StoreFile(folder, 4, 100, 10)
    given = CHANGE_A + CHANGE_A + hexed("0000000e 00000002 01 00000000 01 61 0001 31 00000002 aabb")
    answered = hexed("0000000a 00000000 00 00000001 00 0000000a 00000000 01 00000001 00"
                     "0000000a 00000002 02 00000001 00 0000000a 00000000 03 00000001 00")
    expect("the receipts", followed(store, [given]), answered)
    for cut in range(1, len(given)):
        expect(f"cut at {cut}", followed(StoreFile(folder, 4, 100, 10), [given[:cut], given[cut:]]), answered)


def a_leader_writes_what_it_accepted_and_its_journal_first(folder):
    store = StoreFile(folder, 4, 100, 10)
    expect("a run", led(store, [PUT_A + GET_A]), CHANGE_A)
    expect("the next run", led(store, []), CHANGE_A)
    expect("cut", led(store, [PUT_A[:9], PUT_A[9:] + GET_A]), CHANGE_A + replicas.change_frame(1, (model.PUT, 0, b"a", b"1")))


def what_is_no_change_is_malformed(folder):
    store, chance = StoreFile(folder, 8, 100, 10), random.Random(47)
    bodies = [b"", b"\0", b"\0\0\0", b"\0\0\0\0", hexed("00000000 00"), hexed("00000000 00 00000000"), hexed("00000000 05 00000000"),
              hexed("00000000 01 00000000 00 0000"), hexed("00000000 01 00000000 01 61 0401") + bytes(1025), PUT_A[4:],
              hexed("00000000 03 00000000 00"), hexed("ffffffff 03 00000000"), hexed("00000000 a7 03 00000000"), hexed("00000000 04 000000"),
              hexed("00000000 04 00000001 00")]
    for number, change in enumerate(((model.PUT, 0, b"k" * 255, b"v" * 1024), (model.DELETE, 0, b"k" * 255), (model.CLONE, 0),
                                     (model.PUT, 1, b"k", b""), (model.DELETE, 1, b"k"), (model.DROP, 1))):
        body = replicas.change_body(number, change)
        bodies += [body[:place] for place in {*range(12), len(body) - 1, chance.randrange(len(body))}] + [body + b"\0", body]
    followed(store, [b"".join(map(frame, bodies))])
    expect("all six are taken", store.model.counts()[2], 6)


def refusals_of_a_follower_are_those_of_the_table(folder):
    store = StoreFile(folder, 4, 7, 3)
    changes = [(model.DROP, 0), (model.DROP, 9), (model.PUT, 9, b"a", b"1"), (model.CLONE, 1), (model.CLONE, 0), (model.PUT, 0, b"a", b"1"), (model.CLONE, 1), (model.CLONE, 0), (model.DROP, 1),
               (model.DELETE, 1, b"a"), (model.PUT, 2, b"a", b"1"), (model.DELETE, 2, b"b"), (model.PUT, 2, b"a", b"2"),
               (model.PUT, 2, b"a", b"3"), (model.DELETE, 2, b"a"), (model.PUT, 2, b"a", b"4")]
    sent = b"".join(replicas.change_frame(number, change) for change in changes for number in range(8))
    statuses = {body[4:5] + body[9:] for body in bodies_of(followed(store, [sent]))}
    wanted = {bytes([4, status]) for status in (model.UNKNOWN_VERSION, model.ROOT, model.FROZEN, model.VERSION_LIMIT, model.CHANGE_LIMIT)}
    expect("what was seen", statuses, {b"\0\0", b"\1\0", b"\2\0", *wanted})


def a_leader_is_silent_of_what_it_refuses_and_of_what_changes_nothing(folder):
    chance = random.Random(48)
    for turn in range(12):
        store = StoreFile(folder, chance.choice((4, 9, 64)), chance.choice((40, 1000)), chance.choice((5, 100)))
        for _ in range(3):
            frames = drawn_frames(chance, 40, store.model, 6, 0.2)
            data = b"".join(frames)
            cuts = sorted(chance.randrange(len(data)) for _ in range(chance.randrange(4)))
            led(store, [data[at:to] for at, to in zip([0, *cuts], [*cuts, len(data)]) if at < to])


def the_ends_of_both_are_those_of_a_run_that_serves(folder):
    for word, first in (("lead", PUT_A), ("follow", CHANGE_A)):
        run_of = led if word == "lead" else followed
        for name, rest in (("too long", hexed("00000801") + bytes(40)), ("cut in the length", b"\0\0"), ("cut in the body", first[:9])):
            store = StoreFile(folder)
            run_of(store, [first + rest])
            expect(f"{word}, {name}, changes", store.model.counts()[2], 1)
        empty = os.path.join(folder, "empty")
        open(empty, "wb").close()
        expect(f"{word}, no store", run([word, empty], input=first), (b"", 2, complaint(2)))
        expect(f"{word}, no words", run([word, empty, empty], input=first), (b"", 1, complaint(1)))


# Order

def nothing_is_sent_before_its_change_is_durable(folder):
    commit = ["write", "sync", "write", "sync"]
    puts = [put(tag, b"%02d" % tag, b"v") for tag in range(BATCH_MAX + 2)]
    changes = [replicas.change_frame(tag, (model.PUT, 0, b"%02d" % tag, b"v")) for tag in range(BATCH_MAX + 2)]
    for word, pieces in (("lead", puts), ("follow", changes)):
        store = StoreFile(folder)
        out, calls = calls_of(folder, [word, store.path], [b"".join(pieces)])
        order = [call for call, *_ in calls]
        expect(f"{word}, frames", len(bodies_of(out)), BATCH_MAX + 2)
        durable = sent = 0
        for place, (call, _, piece) in enumerate(calls):
            if call == "output":
                sent += len(bodies_of(piece))
                durable = min(BATCH_MAX, len(pieces)) if order[:place].count("sync") == 3 else len(pieces)
                expect(f"{word}, the syncs before output {place}", order[:place].count("sync") >= 3, True)
                expect(f"{word}, sent at output {place}", sent <= durable, True)
        expect(f"{word}, the first calls", order[:6], ["sync", *commit, "output"])


def what_a_journal_has_is_sent_with_its_numbers_after_many_changes(folder):
    chance, sizes = random.Random(49), set()
    store = StoreFile(folder, 4, 1000, 100)
    for _ in range(20):
        led(store, [b"".join(drawn_over(chance, chance.randrange(1, 12), store.model, 5, 0.2))])
        sizes.add(len(bodies_of(led(store, []))))
    # four in the active region, and behind it two at most
    expect("changes in the journal", (min(sizes) > 0, max(sizes) <= 6), (True, True))
    expect("some behind a full region", max(sizes) > 4, True)


def a_run_of_another_word_leaves_a_gap_that_is_told(folder):
    leader, follower = StoreFile(folder, 4, 100, 10), StoreFile(folder, 4, 100, 10)
    followed(follower, [led(leader, [put(1, b"a", b"1") + put(2, b"b", b"1")])])
    leader.expect_served("serve", [b"".join(put(tag, b"%d" % tag, b"2") for tag in range(9))])
    sent = led(leader, [])
    statuses = {body[4] for body in bodies_of(followed(follower, [sent]))}
    expect("statuses", statuses, {replicas.GAP})
    expect("the follower's changes", follower.model.counts()[2], 2)


# Faults

class Given:
    """Frames for a leader or a follower over a file, what it writes, and what its store is after each number of changes."""

    def __init__(self, word, data, store, commands):
        self.word, now = word, copy.deepcopy(store)
        self.numbers = []  # of changes, by the frames that are written
        self.stores, number = {now.counts()[2]: copy.deepcopy(now)}, now.counts()[2]
        self.least, changes = number, []
        for command in commands:
            sent = replicas.led_by(now, command[4:])
            if sent:
                changes.append(sent)
                self.stores[now.counts()[2]] = copy.deepcopy(now)
        if word == "lead":
            self.frames, first = commands, bodies_of(replicas.sent_at_first(formats.read(data)))
            self.written = [frame(body) for body in first] + changes
        else:
            gap = replicas.change_frame(10 ** 6, (model.CLONE, 0))
            self.frames = [gap, *changes[:3], changes[0], *changes[3:]]
            now = copy.deepcopy(store)
            self.written = [replicas.followed_by(now, piece[4:]) for piece in self.frames]
        self.data, self.made = data, len(changes)

    def run(self, rig, fault):
        """A run over the file as it was."""
        rig.has(self.data)
        return rig.run(fault, self.word, sent=b"".join(self.frames))

    def expect(self, name, ran, data, status):
        """A run that met a fault wrote a prefix, with what is told of the fault, and nothing that it told of is lost."""
        expect(f"{name}, status", (ran.status, ran.said), (status, complaint(status)))
        bodies, told = [frame(body) for body in bodies_of(ran.out)], b"".join(self.written)
        if self.word == "follow" and status == model.DEVICE and bodies:
            last = replicas.change_in(self.frames[len(bodies) - 1][4:])[0]
            expect(f"{name}, the last receipt", bodies[-1], replicas.receipt(last, replicas.REFUSED, last, model.DEVICE_FAULT))
            ran, bodies = ran._replace(out=b"".join(bodies[:-1])), bodies[:-1]
        expect(f"{name}, what is written", ran.out, told[:len(ran.out)] if status != model.ENDED else told)
        known = [body for body in bodies if self.word == "lead" or body[8] == replicas.TAKEN]
        least = max([self.least, *(model.tag_of(body[4:]) + 1 for body in known)])
        found, after = formats.opened(data)
        expect(f"{name}, the file", found, model.ENDED)
        expect_sound(name, data)
        expect(f"{name}, changes", least <= after.counts()[2] <= self.least + self.made, True)
        expect_alike(name, after, self.stores[after.counts()[2]])


def a_call_that_fails_leaves_a_prefix_and_is_told(folder):
    rig = Rig(folder)
    for start, earlier in (("a new store", []), ("a store with a level", EARLIER)):
        data, store = made_over(folder, 4, earlier)
        for word in ("lead", "follow"):
            given = Given(word, data, store, COMMANDS)
            whole = given.run(rig, None)
            given.expect(f"{start}, {word}", whole, rig.bytes(), model.ENDED)
            for kind, number in each_call(whole.calls):
                for fault in faults_of(kind, number):
                    given.expect(f"{start}, {word}, {fault}", given.run(rig, fault), rig.bytes(), status_of(kind))


# Kills

class Copies:
    """A leader and followers that are killed in turn, and between them what drops, repeats and reorders."""

    def __init__(self, folder, chance):
        limits = chance.choice((4, 8, 16)), 1000000, 16384
        self.chance = chance
        self.leader, *self.followers = (StoreFile(folder, *limits) for _ in range(1 + FOLLOWERS))
        self.limits = limits
        self.store = model.Store(*limits)  # after all changes of the log
        self.log = []  # the changes that the leader accepted, as far as it told of them

    def frame(self, number):
        return replicas.change_frame(number, self.log[number])

    def after(self, number):
        """The store after so many changes of the log."""
        store = model.Store(*self.limits)
        for change in self.log[:number]:
            store.make(change)
        return store

    def note(self, sent):
        """Takes what a leader wrote: a change is the one that is known by its number, or the next one."""
        for body in bodies_of(sent):
            number, change = replicas.change_in(body)
            if number < len(self.log):
                expect(f"change {number} again", change, self.log[number])
                continue
            expect("the number of a new change", number, len(self.log))
            expect(f"change {number} is accepted", self.store.refusal(*change[:2]), None)
            self.store.make(change)
            self.log.append(change)

    def stop(self, most):
        """Where a run is killed: behind some of so many bytes of output, or soon after."""
        return self.chance.randrange(most + 1), self.chance.choice((0, 0, self.chance.random() / 500))

    def run_leader(self, stops):
        """Has the leader take changes, and kills it amid them. Whether it was killed."""
        frames = drawn_over(self.chance, self.chance.randrange(1, 50), self.store, 12, 0.1)
        sent, is_killed = ran("lead", self.leader.path, b"".join(frames), self.stop(15 * len(frames)) if stops else None)
        self.note(sent)
        data = bytes_of(self.leader.path)
        status, after = formats.opened(data)
        expect("the leader's file", status, model.ENDED)
        expect_sound("the leader's file", data)
        expect("the leader has what it sent", after.counts()[2] >= len(self.log), True)
        return is_killed

    def carried(self, number):
        """Frames for a follower that waits for this one, as a bad transport carries them."""
        end = min(len(self.log), number + self.chance.randrange(1, 60))
        numbers = [place for place in range(max(0, number - self.chance.randrange(9)), end) if self.chance.random() > 0.05]
        numbers += self.chance.choices(numbers, k=len(numbers) // 10) if numbers else []
        for _ in range(self.chance.randrange(4) if len(numbers) > 1 else 0):
            place = self.chance.randrange(len(numbers) - 1)
            numbers[place], numbers[place + 1] = numbers[place + 1], numbers[place]
        return [self.frame(place) for place in numbers]

    def run_follower(self, follower, stops):
        """Has a follower take what was carried to it, and kills it amid that. Whether it was killed."""
        before = formats.opened(bytes_of(follower.path))[1].counts()[2]
        given = self.carried(before)
        out, is_killed = ran("follow", follower.path, b"".join(given), self.stop(14 * len(given)) if stops else None)
        receipts = bodies_of(out)
        after = self.expect_prefix(follower)
        want, _ = replicas.follow(self.after(before), b"".join(given))
        expect("receipts", receipts, bodies_of(want)[:len(receipts)])
        taken = sum(body[4] == replicas.TAKEN for body in receipts)
        expect("what was answered is in the file", before + taken <= after <= before + len(given), True)
        return is_killed

    def expect_prefix(self, follower):
        """A follower's table is the leader's after a prefix. The number of its changes."""
        data = bytes_of(follower.path)
        status, got = formats.opened(data)
        expect("the follower's file", status, model.ENDED)
        expect_sound("the follower's file", data)
        number = got.counts()[2]
        expect("no more changes than the leader sent", number <= len(self.log), True)
        expect_alike(f"a follower after {number} changes", got, self.after(number))
        return number

    def finish(self):
        """Has each follower take all, and compares tables and exports."""
        for follower in self.followers:
            number = self.expect_prefix(follower)
            out, status, said = fed([PROGRAM, "follow", follower.path], [b"".join(map(self.frame, range(number, len(self.log))))])
            expect("the rest", (len(bodies_of(out)), status, said), (len(self.log) - number, 0, b""))
            expect("at the end", self.expect_prefix(follower), len(self.log))
            expect_told("at the end", follower.path)
        for version in {0, len(self.store.parents) - 1, self.chance.randrange(len(self.store.parents))}:
            status = 0 if self.store.has(version) else model.NO_VERSION
            want = replicas.exported(self.store.pairs[version]) if status == 0 else b""
            for copied in (self.leader, *self.followers):
                expect(f"export of version {version}", run(["export", copied.path, str(version)]), (want, status, complaint(status)))


def ran(word, path, data, stop=None):
    """What a run writes for these bytes, and whether it was killed: behind so many bytes of output and a pause, where these are given."""
    child = subprocess.Popen([PROGRAM, word, path], **PIPES)
    os.set_blocking(child.stdin.fileno(), False)
    least, pause = stop or (None, 0)
    end, out, data = time.monotonic() + DEADLINE, b"", memoryview(data)
    while time.monotonic() < end:
        reads, writes, _ = select.select([child.stdout], [child.stdin] if data else [], [], max(0.0, end - time.monotonic()))
        if writes:
            data = data[child.stdin.write(data[:4096]) or 0:]
        if not data and not child.stdin.closed:
            child.stdin.close()
        piece = os.read(child.stdout.fileno(), 1 << 16) if reads else b""
        out += piece
        if reads and not piece:
            break
        if least is not None and len(out) >= least:
            end, least = min(end, time.monotonic() + pause), None
    is_killed = stop is not None and child.poll() is None
    if is_killed:
        child.kill()
    child.wait(DEADLINE)
    out += child.stdout.read()
    close(child)
    return out, is_killed


@in_memory
def killed_leaders_and_followers_are_the_leader_after_a_prefix(folder):
    chance = random.Random(47)
    copies, kills = Copies(folder, chance), 0
    while kills < KILLS:
        kills += copies.run_leader(chance.random() < 0.9)
        for follower in copies.followers:
            kills += copies.run_follower(follower, chance.random() < 0.9)
    copies.run_leader(False)
    expect("changes of the log", len(copies.log) > KILLS, True)
    copies.finish()


CHECKS = [
    a_follower_answers_each_change_with_what_it_waits_for,
    a_leader_writes_what_it_accepted_and_its_journal_first,
    what_is_no_change_is_malformed,
    refusals_of_a_follower_are_those_of_the_table,
    a_leader_is_silent_of_what_it_refuses_and_of_what_changes_nothing,
    the_ends_of_both_are_those_of_a_run_that_serves,
    nothing_is_sent_before_its_change_is_durable,
    what_a_journal_has_is_sent_with_its_numbers_after_many_changes,
    a_run_of_another_word_leaves_a_gap_that_is_told,
    a_call_that_fails_leaves_a_prefix_and_is_told,
    killed_leaders_and_followers_are_the_leader_after_a_prefix,
]
