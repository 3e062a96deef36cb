"""A report of a store as one page of HTML: what it has, how much of its limits is used, its tree and its levels.

The page has all that it shows, and no script. It is XML as well, so that any reader of XML takes it.
"""

from __future__ import annotations

import os
import time
from typing import Callable, Iterable, Iterator, List, Mapping, NamedTuple, Optional, Sequence
from xml.sax.saxutils import escape

from . import __version__, picture_levels, picture_tree
from .dropping import hanging_in, told
from .frames import Info, Pair
from .keycount import Count, count_keys
from .levels import Level, Levels
from .picture_levels import Gauge, bounded, limited
from .store import Store
from .text import cell, counted, shortened, shown
from .tree import Tree

LISTED = 200  # versions in the table at most
SAMPLE = 3  # keys that the table shows of a version
STYLE = """
  body { font-family: 'DejaVu Sans', Verdana, sans-serif; font-size: 14px; color: #1f2933; margin: 24px; line-height: 1.45; }
  h1 { font-size: 22px; } h2 { font-size: 17px; margin-top: 36px; }
  p { max-width: 60em; }
  table { border-collapse: collapse; }
  th, td { text-align: left; padding: 3px 14px 3px 0; border-bottom: 1px solid #e4e7eb; vertical-align: top; }
  td.number, th.number { text-align: right; font-variant-numeric: tabular-nums; }
  th, td { white-space: nowrap; } td:last-child { white-space: normal; }
  meter { width: 160px; }
  figure { margin: 0; overflow-x: auto; }
"""
POLICY = "default-src 'none'; style-src 'unsafe-inline'"  # the page fetches nothing and runs nothing


class Overview(NamedTuple):
    """What a page shows of a store."""

    name: str
    """Of its file, as it can be printed."""
    time: str
    """When this was gathered."""
    size: int
    """Bytes of its file, and the next one those that are on the disk: the file has holes."""
    allocated: int
    is_copy: bool
    levels: Levels
    versions: Sequence[Optional[Info]]
    """None for a dropped one."""
    hanging: Mapping[int, int]
    """How many dropped versions hang at a version, as `dropping.hanging` has them."""
    names: Mapping[int, Sequence[str]]
    keys: Mapping[int, Count]
    """Of each version that the tree draws by itself."""
    samples: Mapping[int, Sequence[bytes]]
    """The first keys of some versions."""


def gathered(store: Store, until_stopped: Callable[[Iterable[Pair]], Iterator[Pair]] = iter) -> Overview:
    """What a page shows of a store as it is now. Changes meanwhile may be in some of its parts and not in others.

    It reads the levels as `Store.levels` does, asks for the place of each version, and counts keys as `count_keys` does.
    """
    levels, versions = store.levels(), store.versions()
    names = {version: store.names.of(version) for version in set(store.names.values())}
    single = Tree(versions, names).single()
    keys = count_keys(store, single, until_stopped)
    samples = {version: [key for key, _ in store.page(version, limit=SAMPLE).pairs]
               for version in listed(single, names, versions)[:LISTED]}
    found = os.stat(store.path)
    return Overview(cell(os.fsencode(os.path.basename(store.path))), time.strftime("%Y-%m-%d %H:%M:%S %z"), found.st_size,
                 found.st_blocks * 512, store.read_only, levels, versions, hanging_in(store, versions), names, keys, samples)


def listed(single: Iterable[int], names: Mapping[int, Sequence[str]], versions: Sequence[Optional[Info]]) -> List[int]:
    """The versions that have a name or take changes; the table has the first of them."""
    return sorted(version for version in single if names.get(version) or not _info(versions, version).frozen)


def _info(versions: Sequence[Optional[Info]], version: int) -> Info:
    """The place of a version that is there."""
    info = versions[version]
    assert info is not None
    return info


def page(overview: Overview) -> Iterator[str]:
    """The page, piece by piece."""
    title = f"{overview.name}: {told(overview.versions)}, {counted(overview.levels.changes, 'change')}"
    yield '<!DOCTYPE html>\n<html lang="en" xmlns="http://www.w3.org/1999/xhtml">\n<head>\n<meta charset="utf-8"/>\n'
    yield f'<meta http-equiv="Content-Security-Policy" content="{POLICY}"/>\n'
    yield f"<title>{escape(title)}</title>\n<style>{STYLE}</style>\n</head>\n<body>\n<h1>{escape(title)}</h1>\n"
    copy = " It shows a private copy, since the file can't be written." if overview.is_copy else ""
    yield f"<p>Taken on {escape(overview.time)} by castle {escape(__version__)}.{copy}</p>\n"
    yield from _used(overview)
    yield from _tree(overview, title)
    yield from _levels(overview)
    yield "</body>\n</html>\n"


def _used(overview: Overview) -> Iterator[str]:
    """How much of each limit is used and left, and how far the proved bounds are."""
    levels = overview.levels
    yield "<h2>Used and left</h2>\n"
    rows = [[gauge.name, meter(gauge), f"{gauge.used:,}", f"{gauge.most:,}", f"{gauge.most - gauge.used:,}", gauge.meaning]
            for gauge in limited(levels)]
    yield from table(["", "", "#used", "#of", "#left", ""], rows)
    yield (f"<p>The journal was emptied {counted(levels.generation - 1, 'time')}. The file has {overview.size:,} bytes, of "
           f"which {overview.allocated:,} are on the disk. The limits are for life. A store that has used up C or V is read as "
           "before.</p>\n")
    yield "<h2>Proved bounds</h2>\n"
    rows = [[gauge.name, meter(gauge), f"{gauge.used:,}", f"{gauge.most:,}", gauge.meaning] for gauge in bounded(levels)]
    yield from table(["", "", "#is", "#at most", ""], rows)
    yield ("<p>Stored are the entries of all arrays and the updates of the journal. Written are the entries of all arrays "
           "that were ever made. Its bound speaks of the changes that left the journal, in a store that castle made and alone "
           "changed.</p>\n")


def meter(gauge: Gauge) -> Markup:
    """A bar that is as full as a gauge."""
    return Markup(f'<meter min="0" max="{max(1, gauge.most)}" value="{gauge.used}">{gauge.used}</meter>')


def _tree(overview: Overview, title: str) -> Iterator[str]:
    """The tree as a picture, and its versions that have a name or take changes."""
    tree = Tree(overview.versions, overview.names, None, overview.hanging)
    yield "<h2>Versions</h2>\n<figure>\n"
    yield from picture_tree.svg(tree, overview.keys, title)
    yield "</figure>\n<h2>Versions with a name, and leaves</h2>\n"
    versions = listed(tree.single(), overview.names, overview.versions)
    rows = [_version(overview, version) for version in versions[:LISTED]]
    yield from table(["#version", "names", "#clone of", "#ancestors", "", "#keys", "first keys"], rows)
    if len(versions) > LISTED:
        yield f"<p>These are the first {LISTED} of {len(versions):,}.</p>\n"


def _version(overview: Overview, version: int) -> List[str]:
    """A version's row."""
    info = _info(overview.versions, version)
    sample = ", ".join(quoted(key) for key in overview.samples.get(version, ()))
    return [f"{version}", ", ".join(overview.names.get(version, ())), "" if info.parent is None else f"{info.parent}",
            f"{info.depth:,}", "frozen" if info.frozen else "takes changes", str(overview.keys[version]), sample]


def quoted(key: bytes) -> str:
    """A key as the shell shows it, or its beginning."""
    return shortened(shown(key))


def _levels(overview: Overview) -> Iterator[str]:
    """The levels as a picture and as a table."""
    levels = overview.levels
    yield "<h2>Levels</h2>\n<figure>\n"
    yield from picture_levels.svg(levels, overview.name)
    yield "</figure>\n"
    yield from table(["#level", "#horizon", "#arrays", "#leads", "#room for leads", "#entries", "#copies", "#least density"],
                     [_level(levels, level) for level in levels.levels])
    yield ("<p>A change goes to the journal, and a full journal is merged into a level of sorted arrays. An array has entries "
           "that were made at its own versions (leads), and copies of older ones. At least a third of it is live in each "
           "of its versions.</p>\n")


def _level(levels: Levels, level: Level) -> List[str]:
    """A level's row."""
    numbers = (level.number, level.horizon, len(level.arrays), level.leads, levels.capacity(level.number), level.entries,
               level.entries - level.leads)
    least = min(level.arrays, key=lambda array: array.density, default=None)
    return [*(f"{number:,}" for number in numbers), f"{least.least:,}/{least.entries:,}" if least else ""]


# HTML

class Markup(str):
    """Text that is HTML already. Every other text is escaped."""


def table(heads: Sequence[str], rows: Iterable[Sequence[str]]) -> Iterator[str]:
    """A table of texts. The columns whose heads begin with # have numbers."""
    kinds = [' class="number"' if head.startswith("#") else "" for head in heads]
    yield "<table>\n"
    yield _row("th", kinds, [head.lstrip("#") for head in heads])
    for row in rows:
        yield _row("td", kinds, row)
    yield "</table>\n"


def _row(tag: str, kinds: Sequence[str], texts: Sequence[str]) -> str:
    cells = (text if isinstance(text, Markup) else escape(text) for text in texts)
    return f"<tr>{''.join(f'<{tag}{kind}>{text}</{tag}>' for kind, text in zip(kinds, cells))}</tr>\n"
