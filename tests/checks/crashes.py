"""Runs that are killed: amid puts, amid promotions, and with open cursors."""

import copy
import os
import random
import threading
import time

import formats
import model
from model import bodies_of, get, open_cursor, put, reply
from program import (
    DEADLINE, GET_A, PUT_A, StoreFile, Wrong, bytes_of, close, complaint, expect, expect_prefix, expect_sound, read_exactly, send, serve,
    start)
from samples import drawn_beside_cursors, drawn_frames, drawn_over


def killed(path, frames, replies, pause):
    """Sends the frames to a run that is killed after so many bytes of replies and a pause; its whole replies."""
    child = start(path)
    writer = threading.Thread(target=send, args=(child, frames))
    writer.start()
    got = read_exactly(child.stdout, replies)
    time.sleep(pause)
    child.kill()
    child.wait(DEADLINE)
    got += child.stdout.read()
    writer.join()
    close(child)
    return got


def a_killed_run_loses_nothing_that_it_acknowledged(folder):
    chance = random.Random(6)
    for turn in range(50):
        pairs = [(b"key/%d" % chance.randrange(40), chance.randbytes(chance.choice((0, 1, 30, 1024))))
                 for _ in range(400)]
        store = StoreFile(folder, 400, 1000, 10)
        frames = [put(tag, key, value) for tag, (key, value) in enumerate(pairs)]
        got = killed(store.path, frames, chance.randrange(9 * 300), chance.random() / 500)
        answered = len(got) // 9
        expect(f"turn {turn}, replies", got[:9 * answered], b"".join(reply(tag, model.DONE) for tag in range(answered)))
        status, store.model = formats.opened(bytes_of(store.path))
        expect(f"turn {turn}, the file", status, 0)
        expect_sound(f"turn {turn}", bytes_of(store.path))
        kept = [change[2:] for change in store.model.changes]
        if kept != pairs[:len(kept)] or len(kept) < answered:
            raise Wrong(f"turn {turn}: {len(kept)} puts are kept, which aren't the first that were sent, "
                        f"or fewer than the {answered} that were acknowledged")
        gets = b"".join(get(i, b"key/%d" % i) for i in range(40))
        out, status = store.model.serve(gets + PUT_A + GET_A)
        expect(f"turn {turn}, again", serve(store.path, [gets + PUT_A + GET_A]), (out, status, complaint(status)))
        os.remove(store.path)


def kills_amid_promotions_lose_nothing(folder):
    chance = random.Random(23)
    for turn in range(200):
        if turn % 8 == 0:
            store = StoreFile(folder, 4, 100000, 16384)
            keys, clones = chance.choice((3, 30)), chance.choice((0.1, 0.4))
        frames = drawn_over(chance, 80, store.model, keys, clones)
        got = killed(store.path, frames, chance.randrange(9 * 60), chance.random() / 300)
        want = copy.deepcopy(store.model).serve(b"".join(frames))[0]
        answered = len(bodies_of(got))
        expect(f"turn {turn}, replies", got == want[:len(got)], True)
        store.model = expect_prefix(f"turn {turn}", store.path, store.model, frames, answered)
        if turn % 4 == 3:
            store.expect_served(f"turn {turn}, again", drawn_frames(chance, 15, store.model, keys, clones))


def kills_with_open_cursors_lose_nothing(folder):
    chance = random.Random(30)
    for turn in range(60):
        if turn % 6 == 0:
            store = StoreFile(folder, 4, 100000, 16384)
            keys, clones = chance.choice((3, 30)), chance.choice((0.1, 0.4))
        frames = [open_cursor(0, version=len(store.model.parents) - 1), *drawn_beside_cursors(chance, 120, store.model, keys, clones)]
        want = copy.deepcopy(store.model).serve(b"".join(frames))[0]
        got = killed(store.path, frames, chance.randrange(len(want) * 2 // 3), chance.random() / 300)
        expect(f"turn {turn}, replies", got == want[:len(got)], True)
        store.model = expect_prefix(f"turn {turn}", store.path, store.model, frames, len(bodies_of(got)))
        if turn % 3 == 2:
            store.expect_served(f"turn {turn}, again", drawn_beside_cursors(chance, 30, store.model, keys, clones))


CHECKS = [
    a_killed_run_loses_nothing_that_it_acknowledged,
    kills_amid_promotions_lose_nothing,
    kills_with_open_cursors_lose_nothing,
]
