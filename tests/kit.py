"""The kit's command rt as a library. Another kit may want another form of what uses it."""

import importlib.machinery
import importlib.util
import os
import shutil
import sys


def stamped_once(crate):
    """Has a crate's stamp, the sum of all sources that it is made from, be computed once a run. Some kits compute those of
    the crates below anew for each way down to them, which takes minutes where there are many."""
    plain = crate.stamp

    def stamp(self):
        if not hasattr(self, "stamp_once"):
            self.stamp_once = plain(self)
        return self.stamp_once

    crate.stamp = stamp


def rt_as_library():
    path = shutil.which("rt")
    if not path:
        sys.exit("the command rt is not found: put the bin folder of the Rattle kit on PATH")
    loader = importlib.machinery.SourceFileLoader("rt_as_library", os.path.realpath(path))
    module = importlib.util.module_from_spec(importlib.util.spec_from_loader(loader.name, loader))
    sys.modules[loader.name] = module
    given, sys.argv = sys.argv, ["rt"]
    loader.exec_module(module)
    sys.argv = given
    stamped_once(module.rtlib.Crate)
    return module
