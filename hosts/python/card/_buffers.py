"""Bytes that are lent to a call: any buffer, held in its place and not copied. Buffer and WritableBuffer are the types of what is lent, for annotations."""
from __future__ import annotations

import collections.abc
import ctypes

from . import _structs as structs

TYPE_CHECKING = False
if TYPE_CHECKING:
    from _typeshed import ReadableBuffer, WriteableBuffer
    from typing_extensions import TypeAlias

    Buffer: TypeAlias = ReadableBuffer
    WritableBuffer: TypeAlias = WriteableBuffer
else:
    # Before 3.12 the interpreter has no name for a buffer.
    Buffer = WritableBuffer = getattr(collections.abc, "Buffer", object)

# By their index these are functions of our own, and nobody else sees their types.
_hold, _release = ctypes.pythonapi["PyObject_GetBuffer"], ctypes.pythonapi["PyBuffer_Release"]
_hold.restype, _hold.argtypes = ctypes.c_int, (ctypes.py_object, ctypes.POINTER(structs.Held), ctypes.c_int)
_release.restype, _release.argtypes = None, (ctypes.POINTER(structs.Held),)
_nothing = ctypes.c_uint8()
NOTHING = ctypes.addressof(_nothing)  # the pointer to no bytes


def view_of(data: Buffer, what: str) -> memoryview:
    """A view of a buffer."""
    try:
        return memoryview(data)
    except TypeError:
        raise TypeError(f"{what} must be a buffer, as bytes, bytearray, memoryview or mmap, and not {type(data).__name__}") from None


def fits(view: memoryview, what: str, written: bool) -> None:
    """A buffer is lent only as it stands in memory, so that nothing of it is copied."""
    if not view.c_contiguous:
        raise BufferError(f"{what} must be contiguous in memory, and this view leaves bytes out or turns them round")
    if written and view.readonly:
        raise TypeError(f"{what} is read-only, and this call would write it")


class lent:
    """A pointer to a buffer's bytes and how many there are, in a `with`; the buffer is held meanwhile. An empty one has a pointer too, which is never read."""

    __slots__ = ("_view", "_held")

    def __init__(self, data: Buffer, what: str = "the image", written: bool = False) -> None:
        self._view = view_of(data, what)
        try:
            fits(self._view, what, written)
        except BaseException:
            self._view.release()
            raise

    def __enter__(self) -> tuple[int, int]:
        self._held = structs.Held()
        _hold(self._view, self._held, 0)
        return self._held.place or NOTHING, self._view.nbytes

    def __exit__(self, *_: object) -> None:
        _release(self._held)
        self._view.release()


def apart(image: tuple[int, int], data: tuple[int, int]) -> None:
    """The call must not read bytes that it writes."""
    (place, length), (other, count) = image, data
    if length and count and place < other + count and other < place + length:
        raise ValueError("the bytes to write are part of the image, or the image is part of them: write a copy")
