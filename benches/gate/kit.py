"""The kit's rt as a module, in which the digest of a crate is worked out once a call.

The kit works it out once for each path that leads to a crate from one above it: minutes for those at the top, of which
bench_commands has 244,000.
"""

import importlib.machinery
import importlib.util
import os
import shutil
import sys


def _load(name, path):
    loader = importlib.machinery.SourceFileLoader(name, path)
    made = importlib.util.module_from_spec(importlib.util.spec_from_loader(name, loader))
    sys.modules[name] = made
    loader.exec_module(made)
    return made


rt = _load("kit_rt", os.path.realpath(shutil.which("rt")))
rtlib = rt.rtlib
_stamp, _below, _make = rtlib.Crate.stamp, rtlib.Crate.below, rtlib.Crate.__init__
_known = {"calls": 0, "sums": {}}


def _stamp_once(self):
    """The digest of a crate; what it met below is forgotten when the outermost call ends, since files change."""
    if _known["calls"] == 0:
        _known["sums"] = {}
    if self.folder not in _known["sums"]:
        _known["calls"] += 1
        try:
            _known["sums"][self.folder] = _stamp(self)
        finally:
            _known["calls"] -= 1
    return _known["sums"][self.folder]


def _below_once(self):
    """The crates below, each after those that it uses, found once."""
    if "_crates_below" not in self.__dict__:
        self._crates_below = _below(self)
    return list(self._crates_below)


def _made(self, *given, **named):
    _make(self, *given, **named)
    rt.read_files(self)


rtlib.Crate.stamp, rtlib.Crate.below, rtlib.Crate.__init__ = _stamp_once, _below_once, _made
