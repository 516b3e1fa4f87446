"""The examples in docstrings and in the package's README."""

import doctest
import importlib
import os

from .common import PACKAGE

MODULES = (
    "__init__",
    "_certificates",
    "_lists",
    "_questions",
    "_refused",
    "_regulator",
    "_runs",
    "_stream",
)


def load_tests(loader, tests, pattern):
    for module in MODULES:
        module = importlib.import_module(
            "bezhantiru" if module == "__init__" else f"bezhantiru.{module}"
        )
        for test in doctest.DocTestFinder(exclude_empty=True).find(module):
            if test.examples:
                tests.addTest(doctest.DocTestCase(test))
    readme = PACKAGE / "README.md"
    tests.addTest(doctest.DocFileSuite(str(readme), module_relative=False, setUp=in_repository))
    return tests


def in_repository(test: doctest.DocTest) -> None:
    os.chdir(PACKAGE.parent)
