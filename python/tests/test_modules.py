"""What Python's tools find in the package: its modules, and not the shared library."""

import importlib
import pkgutil
import unittest

import bezhantiru
from bezhantiru._library import BUILT

from .common import PACKAGE


class Modules(unittest.TestCase):
    @unittest.skipUnless(BUILT.is_file(), "the library is not built where the package looks for it")
    def test_every_module_that_is_found_can_be_imported(self):
        found = [module.name for module in pkgutil.walk_packages(bezhantiru.__path__, "bezhantiru.")]
        for name in found:
            importlib.import_module(name)
        files = (PACKAGE / "bezhantiru").glob("*.py")
        wanted = {f"bezhantiru.{file.stem}" for file in files} - {"bezhantiru.__init__"}
        self.assertEqual(sorted(found), sorted(wanted))
