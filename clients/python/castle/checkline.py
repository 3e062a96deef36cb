"""The line that shows how far a check is, beside `castle check` at a terminal: python3 -m castle.checkline PROCESS FILE."""

from __future__ import annotations

import os
import sys
import time
from typing import List, Optional

from .checking import Course, blocks_read, course_of
from .fileform import BLOCK
from .progress import columns, told

EVERY = 1.0  # seconds between two lines


def line_of(read: int, path: str, course: Optional[Course]) -> str:
    """How far a check is that has read so many blocks, in words."""
    if course is None:
        return told("blocks read, of three times the file's at most", read, -(-os.path.getsize(path) // BLOCK) * 3)
    place, done = course.place(read)
    return told(f"{place}, blocks read", done, course.total)


def main(words: List[str]) -> int:
    """Shows on standard output how far a process is with the check of a file, as long as it is there, below the cursor."""
    pid, path = int(words[0]), words[1]
    course = course_of(path)
    while True:
        read = blocks_read(pid)
        if read is None:
            return 0
        line = f"castle: {line_of(read, path, course)}"[:columns(sys.stdout) - 1]
        sys.stdout.write(f"\n\033[K{line}\r\033[A")
        sys.stdout.flush()
        time.sleep(EVERY)


if __name__ == "__main__":
    sys.exit(main(sys.argv[1:]))
