"""Frames: whole, cut at any place, too long, malformed or noise, and that each reply comes before the next read."""

import copy
import random
import re
import struct
import threading

import model
from model import (
    bodies_of, clone, close_cursor, delete, drop, frame, get, info, next_pairs, open_cursor, page, put, reply, scan, sized, stat,
    tag_of)
from program import DEADLINE, GET_A, PUT_A, TOP, StoreFile, close, expect, hexed, in_every_cutting, read_exactly, start

GET_B = hexed("0000000c 00000009 03 00000000 0001 62")


def empty_input_is_answered_by_nothing(folder):
    StoreFile(folder).expect_served("empty input", [], (b"", 0))


def a_put_is_found_and_another_key_is_absent(folder):
    want = hexed("00000005 00000007 00  00000008 00000008 01 0001 31  00000005 00000009 02")
    in_every_cutting(folder, "put a, get a, get b", PUT_A + GET_A + GET_B, (want, 0))


def an_opcode_that_is_not_there_is_malformed(folder):
    in_every_cutting(folder, "opcode 12", hexed("00000005 00000001 0c"), (hexed("00000005 00000001 16"), 0))


def a_short_body_is_malformed_and_the_run_goes_on(folder):
    data = hexed("00000003 aabbcc  00000004 00000009  00000000") + PUT_A
    want = hexed("00000005 00000000 16  00000005 00000009 16  00000005 00000000 16  00000005 00000007 00")
    in_every_cutting(folder, "bodies of 3, 4 and 0 bytes", data, (want, 0))


def a_body_that_is_not_just_its_fields_is_malformed(folder):
    for whole in (PUT_A, GET_A, delete(1, b"a"), clone(2), info(3), stat(4), scan(5, b"a", b"bc"), open_cursor(6, b"a", b"bc"),
                  next_pairs(7, 1), close_cursor(8, 1), drop(9, 1)):
        whole = whole[4:]
        bodies = [whole[:length] for length in range(len(whole))] + [whole + b"\0", whole + whole]
        data = b"".join(frame(body) for body in bodies)
        want = b"".join(reply(tag_of(body), model.MALFORMED) for body in bodies) + reply(8, model.ABSENT)
        StoreFile(folder).expect_served("bodies cut short or with bytes left over", [data, GET_A], (want, 0))


def a_frame_that_is_too_long_ends_the_run(folder):
    data = PUT_A + hexed("00000801")
    want = hexed("00000005 00000007 00  00000005 00000000 1a")
    in_every_cutting(folder, "length 2,049", data, (want, 3))
    StoreFile(folder).expect_served("length 2,049 and more", [data, GET_A], (want, 3))


def a_frame_that_is_cut_off_is_not_answered(folder):
    for length in range(1, len(PUT_A)):
        StoreFile(folder).expect_served(f"{length} bytes of a put", [PUT_A[:length]], (b"", 4))
    in_every_cutting(folder, "a put without its last byte", PUT_A[:-1], (b"", 4))


def each_reply_comes_before_the_next_frame_is_sent(folder):
    child = start(StoreFile(folder).path)
    guard = threading.Timer(DEADLINE, child.kill)
    guard.start()
    try:
        for i in range(50):
            value = b"%d" % i
            for sent, want in ((put(i, b"k", value), reply(i, model.DONE)),
                               (get(i, b"k"), reply(i, model.FOUND, sized(value)))):
                child.stdin.write(sent)
                expect(f"round {i}", read_exactly(child.stdout, len(want)), want)
        child.stdin.close()
        expect("status", child.wait(DEADLINE), 0)
    finally:
        guard.cancel()
        child.kill()
        child.wait()
        close(child)


def thousands_of_frames_are_answered_as_the_model_does(folder):
    chance = random.Random(1)
    for count, keys in ((3000, 40), (3000, 700)):
        frames = []
        for tag in range(count):
            key = b"key/%d" % chance.randrange(keys)
            if chance.random() < 0.3:
                frames.append(put(tag, key, chance.randbytes(chance.choice((0, 1, 10, 100)))))
            else:
                frames.append(get(tag, key))
        store = StoreFile(folder, mem=800, changes=100000)
        store.expect_served(f"{count} frames over {keys} keys", [b"".join(frames)], deadline=120)


def damaged_streams_end_with_a_named_status(folder):
    chance = random.Random(2)
    for turn in range(150):
        data = bytearray()
        for tag in range(chance.randrange(12)):
            key = chance.choice((b"a", b"b", b"long key", b""))
            data += chance.choice((put(tag, key, b"v" * chance.randrange(5)), get(tag, key, chance.choice((0, 0, 1)))))
        for _ in range(chance.choice((0, 1, 1, 3))):
            if data:
                data[chance.randrange(len(data))] = chance.randrange(256)
        if chance.random() < 0.3:
            data = data[:chance.randrange(len(data) + 1)]
        cut = chance.randrange(len(data) + 1)
        StoreFile(folder, mem=4).expect_served(f"damaged stream {turn}", [bytes(data[:cut]), bytes(data[cut:])])


def noise_ends_with_a_named_status(folder):
    chance = random.Random(3)
    for turn in range(60):
        data = chance.randbytes(chance.choice((0, 1, 3, 4, 5, 50, 5000)))
        if turn % 2:
            data = bytes(3) + data  # so that the first length is small
        StoreFile(folder).expect_served(f"noise {turn}", [data])


def the_examples_of_the_protocol_are_frames(folder):
    commands, replies = (re.findall(r"^\| (\d+) \| (.*?) \|.*?\| `([0-9a-f ]+)` \|", page, re.M)
                         for page in (TOP / "docs" / "PROTOCOL.md").read_text().split("## Replies"))
    expect("examples", (len(commands), len(replies)), (11, 23))
    for number, name, digits in commands + replies:
        data = hexed(digits)
        expect(f"{name}, its length", struct.unpack(">I", data[:4])[0], len(data) - 4)
        expect(f"{name}, its number", data[8], int(number))
    data = b"".join(hexed(digits) for _, _, digits in commands)
    store = StoreFile(folder)
    malformed = [body.hex() for body in bodies_of(copy.deepcopy(store.model).serve(data)[0]) if body[4] == model.MALFORMED]
    expect("what is malformed", malformed, [])
    store.expect_served("the examples", [data])


CHECKS = [
    empty_input_is_answered_by_nothing,
    a_put_is_found_and_another_key_is_absent,
    an_opcode_that_is_not_there_is_malformed,
    a_short_body_is_malformed_and_the_run_goes_on,
    a_body_that_is_not_just_its_fields_is_malformed,
    a_frame_that_is_too_long_ends_the_run,
    a_frame_that_is_cut_off_is_not_answered,
    each_reply_comes_before_the_next_frame_is_sent,
    thousands_of_frames_are_answered_as_the_model_does,
    damaged_streams_end_with_a_named_status,
    noise_ends_with_a_named_status,
    the_examples_of_the_protocol_are_frames,
]
