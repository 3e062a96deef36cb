"""A client of castle, the versioned store.

    from castle import Store

    Store.format("settings.store", mem=64, changes=100000, versions=100)
    with Store("settings.store") as store:
        store.put(0, "user/1/name", "Ann")
        store.names["staging"] = store.clone(0)
        store.at("staging")["user/1/name"] = b"Eve"

docs/CLIENT.md goes through all of it.
"""

from .batch import Batch
from .branches import Snapshot
from .dropping import Drops
from .errors import CastleError, Ended, Refused
from .exporting import Imported, export
from .frames import Info, Limits, Page, Stat
from .levels import Array, Level, Levels
from .merge import Merge, ThreeWay
from .names import Name, Names
from .rescue import backup, salvage
from .salvaging import Lost, Salvage
from .scan import Difference, Differences, Scan
from .store import Store
from .storetext import Counts
from .verdict import Damaged, Sound, Unsound, Verdict
from .view import VersionView

__all__ = ["Array", "Batch", "CastleError", "Counts", "Damaged", "Difference", "Differences", "Drops", "Ended", "Imported", "Info", "Level", "Levels",
           "Limits", "Lost", "Merge", "Name", "Names", "Page", "Refused", "Salvage", "Scan", "Snapshot", "Sound", "Stat", "Store", "ThreeWay",
           "Unsound", "Verdict", "VersionView", "backup", "export", "salvage"]
__version__ = "0.1.0"
