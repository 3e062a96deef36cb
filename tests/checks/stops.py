"""Stops within stops: a run is killed at a call, the run that recovers from that too, and the run that recovers from this."""

import collections

import model
from faulty import KILLED, Rig, Script, changes_in, counts_of, expect_goes_on, expect_outcome, made_over
from model import clone, delete, drop, put
from program import expect, expect_said
from shim import Fault

DEPTH = 3
AHEAD = 2  # changes that a run makes behind its recovery; those at a full journal promote it, and the second one publishes

CHANGES = [put(1, b"a", b"1"), clone(2), put(3, b"a", b"3", 1), clone(4, 1), drop(5, 2), delete(6, b"b", 1), put(7, b"c", b"4", 1)]
# What a store took before, so that its journal is full, in either region, and with levels below
EARLIER = {"a new store": [], "a full journal": [put(tag, b"%d" % tag, b"e") for tag in range(4)],
           "a second level": [put(tag, b"%d" % tag, b"e") for tag in range(16)]}


def stops_of(calls):
    """Where a process may end: before each write, within it, and by a cut of power before each sync; then within its last reply."""
    counts = counts_of(calls)
    for number in range(1, counts["file.write"] + 1):
        yield Fault("file.write", number, "stop")
        yield Fault("file.write", number, "torn")
    for number in range(1, counts["file.fdatasync"] + 1):
        yield Fault("file.fdatasync", number, "cut")
    if counts["output.write"]:
        yield Fault("output.write", counts["output.write"], "torn")


def writes_of_recovery(calls):
    """How many writes a run makes before it reads its input."""
    reads = [at for at, call in enumerate(calls) if call.kind == "input.read"]
    return counts_of(calls[:reads[0]])["file.write"]


def stopped(rig, name, data, script):
    """What the file may have after a run over these bytes that is stopped, with whether that was amid the writes of its recovery."""
    whole = rig.serve(None, data, script)
    expect_outcome(name, script, whole, rig.bytes(), model.ENDED)
    recovers = writes_of_recovery(whole.calls)
    for stop in stops_of(whole.calls):
        ran = rig.serve(stop, data, script)
        expect_outcome(f"{name}, {stop}", script, ran, rig.bytes(), KILLED)
        yield rig.bytes(), stop.kind == "file.write" and stop.number <= recovers


def stops_within_stops_lose_nothing(folder):
    rig, recoveries = Rig(folder), collections.Counter()
    for start, earlier in EARLIER.items():
        data, store = made_over(folder, 4, earlier)
        script = Script(store, CHANGES)
        seen, latest = {data}, {data}
        for depth in range(1, DEPTH + 1):
            found, within = set(), set()  # what is in the file after a stop, and after one amid the writes of a recovery
            for number, data in enumerate(sorted(latest)):
                rest = script.from_change(changes_in(data))
                if depth > 1:
                    rest = Script(rest.stores[rest.least], rest.frames[:AHEAD])
                for after, is_recovery in stopped(rig, f"{start}, depth {depth}, state {number}", data, rest):
                    (within if is_recovery else found).add(after)
                    recoveries[depth] += is_recovery
            latest = found - seen | within
            seen |= latest
        for number, data in enumerate(sorted(seen)):
            expect_said(f"{start}, state {number}", data, script.stores[changes_in(data)])
            expect_goes_on(f"{start}, state {number}", rig, data, script)
    expect("stops amid the writes of a recovery, from the second run on", [recoveries[depth] > 0 for depth in (2, 3)], [True, True])


CHECKS = [
    stops_within_stops_lose_nothing,
]
