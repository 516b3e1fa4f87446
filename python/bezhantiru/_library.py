"""The shared library: its structures, its functions, and where it is found.

Calls hold Python's lock, so that nobody writes to what is lent to them meanwhile.
"""

from __future__ import annotations

import ctypes
import os
from ctypes import POINTER, Structure, c_size_t, c_uint8, c_uint32, c_uint64
from pathlib import Path
from typing import Any, Optional

VARIABLE = "BEZHANTIRU_LIBRARY"
BUILT = Path(__file__).parent / "shared-library" / "libbezhantiru.so"

NUMBERS = POINTER(c_uint32)
TOTALS = POINTER(c_uint64)


class Settings(Structure):
    _fields_ = [
        ("last", c_uint32),
        ("delay", c_uint32),
        ("buffer", c_uint64),
        ("near_windows", c_uint32 * 129),
    ]


class RegulatorState(Structure):
    _fields_ = [
        ("settings", Settings),
        ("slots", c_uint32),
        ("admitted", c_uint64),
        ("form_peak", c_uint64),
        ("bench_peak", c_uint64),
        ("row", c_uint64 * 192),
    ]


class Made(Structure):
    _fields_ = [("number", c_uint32), ("regulator", RegulatorState)]


class SlotRow(Structure):
    _fields_ = [
        ("number", c_uint32),
        ("held_before", c_uint64),
        ("admitted", c_uint64),
        ("dropped", c_uint64),
        ("departed", c_uint64),
    ]


class DeviceSettings(Structure):
    _fields_ = [
        ("buckets", c_uint32),
        ("delay", c_uint32),
        ("buffer", c_uint64),
        ("rates", c_uint32 * 4),
        ("bursts", c_uint32 * 4),
    ]


class DeviceState(Structure):
    _fields_ = [
        ("settings", DeviceSettings),
        ("slots", c_uint32),
        ("admitted", c_uint64),
        ("departed", c_uint64),
        ("levels", c_uint64 * 4),
        ("form_peak", c_uint64),
        ("bench_peak", c_uint64),
    ]


class MadeDevice(Structure):
    _fields_ = [("number", c_uint32), ("device", DeviceState)]


class PreviewRow(Structure):
    _fields_ = SlotRow._fields_ + [("headroom", c_uint64)]


class BoundRow(Structure):
    _fields_ = [("number", c_uint32), ("piece", c_uint32), ("packets", c_uint64)]


class Part(Structure):
    _fields_ = [("number", c_uint32), ("from", c_uint64), ("bytes", c_uint64)]


class ChainPlaces(Structure):
    _fields_ = [("number", c_uint32), ("places", c_uint32)]


class ChainVerdict(Structure):
    _fields_ = [("number", c_uint32), ("sound", c_uint32)]


class Worst(Structure):
    _fields_ = [("number", c_uint32), ("loss", c_uint32)]


class SizeRow(Structure):
    _fields_ = [
        ("number", c_uint32),
        ("found", c_uint32),
        ("limit", c_uint32),
        ("lost", c_uint32),
    ]


class JudgementRow(Structure):
    _fields_ = [
        ("number", c_uint32),
        ("rule", c_uint32),
        ("slot", c_uint32),
        ("window", c_uint32),
    ]


#: The header's name of each structure.
STRUCTURES = {
    "bezhantiru_settings": Settings,
    "bezhantiru_regulator": RegulatorState,
    "bezhantiru_made": Made,
    "bezhantiru_slot_row": SlotRow,
    "bezhantiru_device_settings": DeviceSettings,
    "bezhantiru_device": DeviceState,
    "bezhantiru_made_device": MadeDevice,
    "bezhantiru_preview_row": PreviewRow,
    "bezhantiru_bound": BoundRow,
    "bezhantiru_part": Part,
    "bezhantiru_chain": ChainPlaces,
    "bezhantiru_chain_verdict": ChainVerdict,
    "bezhantiru_worst": Worst,
    "bezhantiru_size": SizeRow,
    "bezhantiru_judgement": JudgementRow,
}

_list = [NUMBERS, c_size_t]
_limits = [c_uint32, c_uint32]
_set_up = _list + _limits
_run = _set_up + _list * 4
_sized = _list + [c_uint32] + _list + [c_uint32]

#: The answer and the arguments of each function, without the first part of its name.
FUNCTIONS: dict[str, tuple[Any, list[Any]]] = {
    "set_up": (Made, _set_up),
    "slot": (SlotRow, [POINTER(RegulatorState), c_uint64]),
    "slot_on": (
        SlotRow,
        [TOTALS, NUMBERS, c_uint32, c_uint32, c_uint64, NUMBERS, TOTALS, TOTALS, TOTALS, c_uint64],
    ),
    "form_fill": (c_uint64, [c_uint64] * 3),
    "bench_fill": (c_uint64, [c_uint64] * 2),
    "preview_on": (
        PreviewRow,
        [TOTALS, NUMBERS, c_uint32, c_uint32, c_uint64, c_uint32, c_uint64, c_uint64],
    ),
    "device_set_up": (MadeDevice, _set_up),
    "device_slot_on": (
        SlotRow,
        [TOTALS, NUMBERS, NUMBERS, c_uint32, c_uint32, c_uint64, NUMBERS]
        + [TOTALS] * 4
        + [c_uint64],
    ),
    "run": (c_uint32, _run),
    "find_chain": (ChainPlaces, _set_up + _list + [c_uint32] + _list * 3),
    "check_chain": (ChainVerdict, _set_up + _list + [c_uint32] + _list * 3 + [c_uint32]),
    "certify": (c_uint32, _run),
    "check_certificate": (JudgementRow, _set_up + _list * 6),
    "path_run": (c_uint32, [c_uint32] + _list * 4 + _limits + _list * 4),
    "envelope": (BoundRow, _list + [c_uint32]),
    "counts_part": (Part, [POINTER(c_uint8), c_size_t]),
    "square_run": (c_uint32, [NUMBERS] + _limits + _list * 4),
    "port_run": (c_uint32, _list + [c_uint32, c_uint32] + _list * 3),
    "worst_trace": (Worst, _set_up + [c_uint32] * 3 + _list),
    "smallest_buffer": (SizeRow, _sized),
    "smallest_delay": (SizeRow, _sized),
    "short_traces": (c_uint32, [c_uint32] + _list),
    "pencil_run": (c_uint32, _run),
    "judge": (JudgementRow, _set_up + _list * 3),
}


class Library:
    """One shared library. A function that it does not have says so when it is called."""

    def __init__(self) -> None:
        self._opened: Optional[ctypes.PyDLL] = None
        self._closed = False
        self._functions: dict[str, Any] = {}

    def load(self, path: Optional[os.PathLike[str] | str] = None) -> None:
        """Opens the library at a path, or the one that the variable names, or the built one."""
        named = os.fspath(path) if path is not None else os.environ.get(VARIABLE)
        found = Path(named) if named else BUILT
        if not found.is_file():
            raise OSError(
                f"there is no library {found}: ./python/build makes it, and the variable "
                f"{VARIABLE} may name another one"
            )
        opened = ctypes.PyDLL(str(found.resolve()))
        functions = {}
        for name, (answer, arguments) in FUNCTIONS.items():
            function = getattr(opened, f"bezhantiru_{name}", None)
            if function is not None:
                function.restype, function.argtypes = answer, arguments
                functions[name] = function
        if "set_up" not in functions:
            raise OSError(f"{found} is not the library of the regulator")
        self._opened, self._functions, self._closed = opened, functions, False

    def close(self) -> None:
        """Every call from now on raises, until the library is loaded again."""
        self._opened, self._functions, self._closed = None, {}, True

    def has(self, name: str) -> bool:
        """Whether the library has a function, by its name without ``bezhantiru_``."""
        self._open()
        return name in self._functions

    def _open(self) -> None:
        if self._closed:
            raise RuntimeError("the library is closed; bezhantiru.load() opens it again")
        if self._opened is None:
            self.load()

    def __getitem__(self, name: str) -> Any:
        function = self._functions.get(name)
        if function is None:
            self._open()
            function = self._functions.get(name)
        if function is None:
            raise NotImplementedError(f"this library has no bezhantiru_{name}: it is an older one")
        return function


library = Library()
