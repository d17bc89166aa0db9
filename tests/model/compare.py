"""Compares one call of the library with the model's, and makes a difference smaller."""

import time
from collections import namedtuple

import ends
import images
import model
from library import LayoutError
from units import NOWHERE

Case = namedtuple("Case", "steps name args")


def arguments(case):
    """The arguments of a case, with the image that its steps make, or its windows, in front where it has steps."""
    return ends.given(case.name, images.made(case.steps), case.args) if case.steps else case.args


def library_answer(library, name, args):
    """The library's answer; a byte written outside a lent slice is an answer that never equals the model's."""
    try:
        return library[name](*args)
    except LayoutError as error:
        return str(error), (), (), NOWHERE


def differs(library, case):
    """Whether library and model answer a case differently."""
    args = arguments(case)
    return library_answer(library, case.name, args) != model.CALLS[case.name](*args)


def simpler_parts(value):
    """Tuples like the given one with one part made simpler."""
    for i, part in enumerate(value):
        for candidate in simpler(part):
            parts = (*value[:i], candidate, *value[i + 1 :])
            yield type(value)(*parts) if hasattr(value, "_fields") else parts


def simpler(value):
    """Simpler values in place of a number, some bytes or a tuple of them."""
    if isinstance(value, int):
        for candidate in dict.fromkeys((0, 1, value // 2, value - 1)):
            if 0 <= candidate < value:
                yield candidate
    elif isinstance(value, bytes) and value:
        for candidate in (b"", bytes(len(value)), value[: len(value) // 2], value[:-1]):
            if candidate != value:
                yield candidate
    elif isinstance(value, tuple):
        yield from simpler_parts(value)


def simpler_cases(case):
    """Cases with fewer steps, a plainer or shorter start, or simpler arguments."""
    steps = case.steps
    for size in (len(steps) // 2, len(steps) // 4, 1):
        for at in range(1, len(steps), max(size, 1)):
            yield case._replace(steps=steps[:at] + steps[at + max(size, 1) :])
    if steps:
        _, length, fill = steps[0]
        if fill:
            yield case._replace(steps=[("start", length, 0), *steps[1:]])
        for shorter in (length // 2, length - 4096, length - 512, length // 512 * 512):
            if 0 <= shorter < length:
                yield case._replace(steps=[("start", shorter, fill), *steps[1:]])
    for args in simpler_parts(case.args):
        if kept_widths(case.args, args):
            yield case._replace(args=args)


def kept_widths(was, now):
    """Whether a simpler argument still has the length that its place needs: boot code, signatures, GUID tails, names and the slot's
    bytes in a state; and whether windows are still cut by the same block size."""
    if isinstance(was, ends.Cut):
        return was.b == now.b
    if isinstance(was, bytes) and isinstance(now, bytes):
        return len(was) == len(now) or len(was) not in (4, 8, 128, 440)
    if isinstance(was, tuple):
        return all(kept_widths(one, two) for one, two in zip(was, now))
    return True


def shrink(library, case, seconds=20):
    """A smaller case with a difference, found by trying simpler ones again and again for a while."""
    end = time.monotonic() + seconds
    found = True
    while found and time.monotonic() < end:
        found = False
        for candidate in simpler_cases(case):
            if time.monotonic() > end:
                break
            if differs(library, candidate):
                case, found = candidate, True
                break
    return case


def runs(data, limit=24):
    """The bytes that are not zero, as places and hexadecimal digits."""
    place, shown = 0, 0
    while place < len(data) and shown < limit:
        if data[place]:
            end = place
            while end < len(data) and end - place < 128 and any(data[end : end + 8]):
                end += 1
            yield f"    {place}: {data[place:end].hex()}"
            place, shown = end, shown + 1
        else:
            place += 1


def buffers_told(one, two):
    """Where the buffers of two answers differ."""
    for i, (left, right) in enumerate(zip(one, two)):
        places = [place for place in range(min(len(left), len(right))) if left[place] != right[place]]
        if places:
            at = places[0]
            shown = f"library {left[at:at + 16].hex()}, model {right[at:at + 16].hex()}"
            yield f"  lent buffer {i}: {len(places)} bytes differ, the first at {at}: {shown}"


def told(library, case):
    """A difference as lines of text: the call, its arguments, the image and both answers."""
    args = arguments(case)
    left = library_answer(library, case.name, args)
    right = model.CALLS[case.name](*args)
    yield f"difference in {case.name}"
    if case.steps:
        image = images.made(case.steps)
        yield f"  image: {len(image)} bytes, made by these steps:"
        yield from (f"    {step!r:.600}" for step in case.steps)
        yield "  its bytes that are not zero, from the front:"
        yield from runs(image)
    yield f"  arguments{' after the image' if case.steps else ''}: {case.args!r}"
    yield f"  library: {left[0]} {left[1]!r}, where {left[3]}"
    yield f"  model:   {right[0]} {right[1]!r}, where {right[3]}"
    yield from buffers_told(left[2], right[2])
