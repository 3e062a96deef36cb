"""Files of stores: made, run again, filled, reached by links, and what is no file; and the memory that a run takes."""

import os
import random
import struct
import threading

import formats
import model
from model import Store, get, put, reply, stat
from program import (
    DEADLINE, GET_A, PUT_A, Skipped, StoreFile, Wrong, bytes_of, close, complaint, expect, hexed, memory_of, read_exactly, run, send,
    serve, start)
from samples import folders_of


def formatting_writes_the_bytes_of_a_new_store(folder):
    path = StoreFile(folder, 4, 100, 10).path
    inside, outside = os.pipe()
    os.write(outside, PUT_A)
    expect("input left", (run(["format", path, "4", "100", "10"], stdin=inside)[1], os.read(inside, 100)), (0, PUT_A))
    os.close(inside)
    os.close(outside)
    data = bytes_of(path)
    head = hexed("a7 5354524154425431 0002 0000000000000001 00000006 00000026 00 00000004 00000064 0000000a")
    expect("the superblock", data[:40], head)
    expect("the manifest", data[24576:24621], hexed(8 * "00" + "00" * 20 + "0000000000000001 00000001 00 00 000000"))
    for limits in ((4, 1, 1), (4096, 2 ** 24, 2 ** 14), (5, 7, 9)):
        StoreFile(folder, *limits).expect_served(f"limits {limits}", [GET_A], (reply(8, model.ABSENT), 0))
    # whatever was there is gone: other bytes, or a store with pairs
    used = StoreFile(folder)
    used.expect_served("a put", [PUT_A])
    for name, data in (("noise", random.Random(4).randbytes(40000)), ("a store", bytes_of(used.path))):
        with open(used.path, "wb") as file:
            file.write(data)
        expect(f"format over {name}", run(["format", used.path, "4", "100", "10"]), (Store(4, 100, 10).line(), 0, b""))
        want = reply(8, model.ABSENT), 0, b""
        expect(f"serve after format over {name}", serve(used.path, [GET_A]), want)


def a_second_run_has_what_the_first_acknowledged(folder):
    chance = random.Random(5)
    store = StoreFile(folder)
    for turn in range(20):
        keys = [b"%d" % chance.randrange(12) for _ in range(4)]
        puts = [put(i, key, chance.randbytes(chance.randrange(40))) for i, key in enumerate(keys[:3])]
        gets = [get(i, key) for i, key in enumerate(keys)]
        store.expect_served(f"run {turn}", [b"".join(puts + gets)])


def a_store_takes_as_many_changes_as_it_was_made_for(folder):
    for limits, most in (((4, 2, 2), 2), ((4, 100, 10), 100), ((5, 5, 1), 5)):
        puts = [put(i, b"%d" % (i % 7), b"%d" % i) for i in range(most + 2)]
        gets = [get(i, b"%d" % i) for i in range(8)]
        store = StoreFile(folder, *limits)
        want = b"".join(reply(i, model.DONE if i < most else model.CHANGE_LIMIT) for i in range(most + 2))
        store.expect_served(f"limits {limits}", [b"".join(puts)], (want, 0))
        want = b"".join(reply(i, model.CHANGE_LIMIT) for i in range(most + 2))
        store.expect_served(f"limits {limits}, again", [b"".join(puts)], (want, 0))
        store.expect_served(f"limits {limits}, what is there", [b"".join(gets) + stat(1)])


def thousands_of_puts_are_kept(folder):
    store = StoreFile(folder, 4096, 100000, 100)
    puts = [put(i, b"key/%d" % (i % 1500), b"value/%d" % i) for i in range(4000)]
    want = b"".join(reply(i, model.DONE) for i in range(4000))
    store.expect_served("4,000 puts", [b"".join(puts)], (want, 0), deadline=600)
    store.expect_served("4,000 puts, again", [b"".join(get(i, b"key/%d" % i) for i in range(1600))], deadline=120)


def peak_of(path, data, replies):
    """Most bytes of memory that a serving run had until so many replies to these frames were read."""
    child = start(path)
    guard = threading.Timer(3 * DEADLINE, child.kill)
    guard.start()
    writer = threading.Thread(target=send, args=(child, [data[i:i + 4096] for i in range(0, len(data), 4096)]))
    writer.start()
    try:
        for _ in range(replies):
            read_exactly(child.stdout, int.from_bytes(read_exactly(child.stdout, 4), "big"))
        return memory_of(child)
    finally:
        guard.cancel()
        child.kill()
        child.wait()
        writer.join()
        close(child)


def a_served_store_takes_the_memory_that_is_said(folder):
    if not os.path.exists("/proc/self/status"):
        raise Skipped("no /proc here")
    mem, versions = 4096, 16384
    store = StoreFile(folder, mem, 2 ** 24, versions)
    puts = b"".join(put(i, struct.pack(">I", i) + bytes(251), bytes(1024)) for i in range(mem))
    said = 1_800_000 + 5_300 * mem
    serving = peak_of(store.path, puts, mem)
    if serving > said:
        raise Wrong(f"a store takes {serving:,} bytes while it is filled, said are {said:,}")
    # the height is the recovery of what was served
    recovering = peak_of(store.path, get(1, bytes(255)), 1)
    if abs(recovering - said) > said // 10:
        raise Wrong(f"a full store takes {recovering:,} bytes, said are {said:,}")
    # emptying the journal takes another level 0, and the promotion
    publishing, most = peak_of(store.path, puts[:len(puts) // mem], 1), said + 4_000_000 + 4_000 * mem
    if publishing > most:
        raise Wrong(f"a store that empties its journal takes {publishing:,} bytes, said are {most:,}")


def what_is_no_file_is_refused_by_name(folder):
    inner = os.path.join(folder, "folder")
    os.mkdir(inner)
    for words in (["serve", inner], ["format", inner, "4", "100", "10"], ["levels", inner], ["workload", inner, "1", "0"],
                  *([job, os.path.join(folder, "no", "where")] for job in ("serve", "levels"))):
        expect(f"{words}", run(words, input=PUT_A), (b"", 5, complaint(5)))
    expect("the folder", os.listdir(inner), [])
    pipe = os.path.join(folder, "pipe")
    os.mkfifo(pipe)
    for path in (pipe, "/dev/null", "/dev/zero"):
        for words in (["serve", path], ["format", path, "4", "100", "10"], ["levels", path], ["workload", path, "1", "0"]):
            expect(f"{words}", run(words, input=PUT_A), (b"", 5, complaint(5)))
    for job in ("serve", "levels"):
        absent = os.path.join(folder, f"absent {job}")
        expect(f"{job}, an absent file", run([job, absent], input=PUT_A), (b"", 2, complaint(2)))
        expect(f"{job}, an absent file, now", bytes_of(absent), b"")


def a_file_is_reached_by_symbolic_links(folder):
    links, files = folders_of(folder)
    file, link, other = os.path.join(files, "a.store"), os.path.join(links, "link"), os.path.join(links, "other")
    os.symlink("../files/a.store", link)
    os.symlink(link, other)
    made = Store(4, 100, 10)
    expect("format by a link to no file", run(["format", other, "4", "100", "10"]), (made.line(), 0, b""))
    expect("the file", bytes_of(file) == formats.unpublished(made), True)
    for path in (link, other, file):
        out, status = made.serve(PUT_A + GET_A)
        expect(f"serve {path}", serve(path, [PUT_A + GET_A]), (out, status, b""))
        expect(f"serve {path}, the file", bytes_of(file) == formats.unpublished(made), True)
    expect("what is there", (sorted(os.listdir(links)), os.listdir(files)), (["link", "other"], ["a.store"]))
    expect("links are links", (os.path.islink(link), os.path.islink(other)), (True, True))


def a_link_that_leads_to_no_name_is_a_device_fault(folder):
    links, files = folders_of(folder)
    circle, odd = os.path.join(links, "circle"), os.path.join(links, "odd")
    os.symlink("circle", circle)
    os.symlink(os.fsencode(files) + b"/\xff", odd)
    for path in (circle, odd):
        for words in (["format", path, "4", "100", "10"], ["serve", path]):
            expect(f"{words}", run(words, input=PUT_A), (b"", 5, complaint(5)))
    expect("files", os.listdir(files), [])


CHECKS = [
    formatting_writes_the_bytes_of_a_new_store,
    a_second_run_has_what_the_first_acknowledged,
    a_store_takes_as_many_changes_as_it_was_made_for,
    thousands_of_puts_are_kept,
    a_served_store_takes_the_memory_that_is_said,
    what_is_no_file_is_refused_by_name,
    a_file_is_reached_by_symbolic_links,
    a_link_that_leads_to_no_name_is_a_device_fault,
]
