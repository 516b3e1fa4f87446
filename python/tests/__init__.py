"""Tests of the package, run by ``python3 -m unittest`` in the folder above."""
