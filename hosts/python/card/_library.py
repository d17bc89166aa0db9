"""The library: where libcard.so is found, and its calls by their names in include/card.h, each with the types of what it takes and gives."""
from __future__ import annotations

import ctypes
import errno
import os
from ctypes import c_size_t, c_uint32, c_uint64, c_void_p

from . import _structs as structs
from ._refusals import BACK, FRONT

TYPE_CHECKING = False
if TYPE_CHECKING:
    from collections.abc import Callable
    from typing import TypeVar, Union

    R = TypeVar("R", bound=ctypes.Structure)
    Taken = Union[type[ctypes.Structure], type[c_void_p], type[c_size_t], type[c_uint32], type[c_uint64]]

_NAMES = ("libcard.so.0", "libcard.so")


def _named(path: str) -> ctypes.PyDLL:
    """The library that CARD_LIBRARY names."""
    if not os.path.exists(path):
        raise FileNotFoundError(errno.ENOENT, "CARD_LIBRARY names a library that is not there", path)
    return ctypes.PyDLL(os.path.abspath(path))


def _open() -> ctypes.PyDLL:
    """The library. PyDLL keeps the interpreter's lock during a call."""
    if os.environ.get("CARD_LIBRARY"):
        return _named(os.environ["CARD_LIBRARY"])
    here = os.path.dirname(os.path.abspath(__file__))
    for folder in (here, os.path.join(here, "..", "..", "..", "target", "lib")):
        for path in (os.path.join(folder, name) for name in _NAMES):
            if os.path.exists(path):
                return ctypes.PyDLL(path)
    failures = []
    for name in _NAMES:
        try:
            return ctypes.PyDLL(name)
        except OSError as failure:
            failures.append(str(failure))
    raise OSError("no library beside the package's files, in ../../../target/lib or where the system's loader looks; CARD_LIBRARY can name it: " + "; ".join(failures))


lib = _open()
_slice = (c_void_p, c_size_t)
_image = (*_slice, c_uint64)


def _function(name: str) -> ctypes._NamedFuncPointer:
    try:
        return lib[name]
    except AttributeError:
        raise ImportError(f"{lib._name} has no {name}: it is another library, or one of another version than this package") from None


def _call(name: str, result: type[R], *arguments: Taken) -> Callable[..., R]:
    """A call that answers with a struct."""
    call = _function(name)
    call.restype, call.argtypes = result, arguments
    return call


def _plain(name: str, *arguments: Taken) -> Callable[..., int]:
    """A call that answers with a number of 32 bits."""
    call = _function(name)
    call.restype, call.argtypes = c_uint32, arguments
    return call


card_lay = _call("card_lay", structs.Answer, *_image, structs.Guid)
card_check = _call("card_check", structs.Answer, *_image)
card_put = _call("card_put", structs.Answer, *_image, c_uint32, structs.Record)
card_clear = _call("card_clear", structs.Answer, *_image, c_uint32)
card_write_payload = _call("card_write_payload", structs.Stored, *_image, c_uint32, c_size_t, *_slice)
card_read_payload = _call("card_read_payload", structs.Stored, *_image, c_uint32, c_size_t, *_slice)
card_payload_place = _call("card_payload_place", structs.Spot, *_image, c_uint32, c_size_t, c_size_t)
card_count_used = _call("card_count_used", structs.Count, *_image)
card_read_slot = _call("card_read_slot", structs.SlotRead, *_image, c_uint32)
card_list = _call("card_list", structs.Count, *_image, *_slice)
card_free_runs = _call("card_free_runs", structs.Count, *_image, *_slice, *_slice)
card_map_make = _call("card_map_make", structs.Made, *_image)
card_map_put = _call("card_map_put", structs.Carried, *_image, c_uint32, structs.Record, structs.Map)
card_map_clear = _call("card_map_clear", structs.Carried, *_image, c_uint32, structs.Map)
card_map_lowest_free = _call("card_map_lowest_free", structs.Next, structs.Map)
card_map_used = _plain("card_map_used", structs.Map)
card_read_label = _call("card_read_label", structs.LabelRead, *_image, c_uint32)
card_write_label = _call("card_write_label", structs.Answer, *_image, c_uint32, structs.Label)
card_judge = _call("card_judge", structs.Judged, *_image, *_slice)
card_reader_copy = _call("card_reader_copy", structs.Copy, *_image)
card_reader_slot = _call("card_reader_slot", structs.ReaderSlot, *_image, c_uint32)
card_reader_list = _call("card_reader_list", structs.ReaderCount, *_image, *_slice)
card_start_put = _call("card_start_put", structs.UpdateStep, *_image, c_uint32, structs.Record)
card_start_clear = _call("card_start_clear", structs.UpdateStep, *_image, c_uint32)
card_next_stage = _call("card_next_stage", structs.UpdateStep, *_image, c_uint32, structs.Update)
card_start_repair = _call("card_start_repair", structs.RepairStep, *_image)
card_next_repair = _call("card_next_repair", structs.RepairStep, *_image, c_uint32, structs.Repair)
gpt_flags_of = _call("gpt_flags_of", structs.Flags, c_uint64)
gpt_flags_bits = _call("gpt_flags_bits", structs.Bits, structs.Flags)
card_version = _call("card_version", structs.Version)
gpt_crc32_next = _plain("gpt_crc32_next", c_uint32, *_slice)

# The reading edition by UEFI has a call for each table.
_TABLES = ((FRONT, "primary"), (BACK, "backup"))
uefi_headers = {table: _call(f"gpt_uefi_read_{name}_header", structs.HeaderRead, *_image) for table, name in _TABLES}
uefi_counts = {table: _call(f"gpt_uefi_count_{name}", structs.ReaderCount, *_image) for table, name in _TABLES}
uefi_lists = {table: _call(f"gpt_uefi_list_{name}", structs.ReaderCount, *_image, *_slice) for table, name in _TABLES}

# A call on windows takes a head, a tail, a number of blocks and a block size.
_windows = (*_slice, *_slice, c_uint64, c_uint64)

card_window_lay = _call("card_window_lay", structs.Answer, *_windows, structs.Guid)
card_window_check = _call("card_window_check", structs.Answer, *_windows)
card_window_put = _call("card_window_put", structs.Answer, *_windows, c_uint32, structs.Record)
card_window_clear = _call("card_window_clear", structs.Answer, *_windows, c_uint32)
card_window_count_used = _call("card_window_count_used", structs.Count, *_windows)
card_window_read_slot = _call("card_window_read_slot", structs.SlotRead, *_windows, c_uint32)
card_window_list = _call("card_window_list", structs.Count, *_windows, *_slice)
card_window_free_runs = _call("card_window_free_runs", structs.Count, *_windows, *_slice, *_slice)
card_window_map_make = _call("card_window_map_make", structs.Made, *_windows)
card_window_reader_copy = _call("card_window_reader_copy", structs.Copy, *_windows)
card_window_reader_slot = _call("card_window_reader_slot", structs.ReaderSlot, *_windows, c_uint32)
card_window_reader_list = _call("card_window_reader_list", structs.ReaderCount, *_windows, *_slice)
card_window_start_put = _call("card_window_start_put", structs.UpdateStep, *_windows, c_uint32, structs.Record)
card_window_start_clear = _call("card_window_start_clear", structs.UpdateStep, *_windows, c_uint32)
card_window_next_stage = _call("card_window_next_stage", structs.UpdateStep, *_windows, c_uint32, structs.Update)
card_window_start_repair = _call("card_window_start_repair", structs.RepairStep, *_windows)
card_window_next_repair = _call("card_window_next_repair", structs.RepairStep, *_windows, c_uint32, structs.Repair)
card_window_read_label = _call("card_window_read_label", structs.LabelRead, *_windows, c_uint32, *_slice)
card_window_judge = _call("card_window_judge", structs.Judged, *_windows, *_slice, *_slice)
card_window_payload_place = _call("card_window_payload_place", structs.Spot, *_windows, c_uint32, c_size_t, c_size_t)
