"""What a sync that failed leaves behind: the system may have dropped what it was to make durable, and a later sync does not say so."""

import collections
import errno

import formats
import model
from faulty import Rig, changes_in, counts_of, expect_goes_on, expect_outcome, starts
from model import BLOCK, bodies_of
from program import expect
from shim import Fault


# What one sync of a run that failed leaves: how many changes were acknowledged before it, what the file has in the system's
# memory, and what it has on the device, which is nothing of what was written since the sync before
FailedSync = collections.namedtuple("FailedSync", "name acknowledged in_memory on_device")


def failed_syncs(rig, begun, data, script):
    """Each sync of the file by a run over these bytes, as it fails."""
    for number in range(1, counts_of(rig.serve(None, data, script).calls)["file.fdatasync"] + 1):
        name, found = f"{begun}, sync {number}", []
        for way in ("error", "drop"):
            ran = rig.serve(Fault("file.fdatasync", number, way, errno.EIO), data, script)
            expect_outcome(f"{name}, {way}", script, ran, rig.bytes(), model.DEVICE)
            found.append(rig.bytes())
        answered = max(0, len(bodies_of(ran.out)) - 1)  # the last reply tells the fault
        yield FailedSync(name, script.made[answered], *found)


def a_copy_or_another_mount_after_a_sync_that_failed_loses_nothing(folder):
    rig = Rig(folder)
    for begun, data, script in starts(folder):
        for failed in failed_syncs(rig, begun, data, script):
            expect_goes_on(f"{failed.name}, copied", rig, failed.in_memory, script)
            expect_goes_on(f"{failed.name}, mounted again", rig, failed.on_device, script)


def written_again(on_device, after, calls):
    """The bytes on the device once those blocks were synced that a run wrote, which then had these bytes in the system's memory."""
    data = bytearray(on_device.ljust(len(after), b"\0"))
    for call in calls:
        if call.kind == "file.write":
            first, end = call.place // BLOCK * BLOCK, -(-(call.place + call.size) // BLOCK) * BLOCK
            data[first:end] = after[first:end]
    return bytes(data)


def a_run_over_what_a_sync_dropped_may_lose_what_was_acknowledged(folder):
    """Why docs/ERRORS.md has the file copied or mounted again: a cut of power after a run over the file as it is takes even older changes,
    or damages the file."""
    rig, lost = Rig(folder), []
    for begun, data, script in starts(folder):
        for failed in failed_syncs(rig, begun, data, script):
            rest = script.from_change(changes_in(failed.in_memory))
            ran = rig.serve(None, failed.in_memory, rest)
            expect_outcome(f"{failed.name}, served as it is", rest, ran, rig.bytes(), model.ENDED)
            left = written_again(failed.on_device, rig.bytes(), ran.calls)
            status, store = formats.opened(left)
            lost += [failed.name] if status == model.DAMAGED or store.counts()[2] < failed.acknowledged else []
    expect("some of them lose changes", len(lost) > 0, True)


CHECKS = [
    a_copy_or_another_mount_after_a_sync_that_failed_loses_nothing,
    a_run_over_what_a_sync_dropped_may_lose_what_was_acknowledged,
]
