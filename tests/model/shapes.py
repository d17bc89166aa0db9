"""Tries, without the library, that what library.py declares is what the model's calls take and answer."""

import inspect

import cases
import coverage
import library
import model
import screens
import states
import wide
from draws import Draw
from units import NOWHERE


def wrong_values(rounds=100):
    """Values of the model that come back changed from the C structure that holds them."""
    draw = Draw(rounds)
    for _ in range(rounds):
        for kind, value in (
            (library.GUID, draw.guid()),
            (library.PARTITION, draw.record()),
            (library.HEADER, draw.header()),
            (library.SLOT_MAP, cases.some_map(draw)),
            (library.SETTINGS, draw.settings(512)),
            (library.RECORD, draw.mbr_record()),
            (library.MBR, draw.mbr()),
            (library.UPDATE, states.update(draw, bytes(rounds), 512)),
            (library.REPAIR, states.repair(draw, bytes(rounds), 4096)),
            (library.LABEL, screens.label(draw, draw.pick(screens.DATES))),
        ):
            back = library.plain(kind, library.native(kind, value))
            if back != value:
                yield f"{kind.__name__}: {value!r:.200} comes back as {back!r:.200}"


def wrong_names():
    """Calls that one of the lists of calls has and another has not."""
    drawn = {**cases.ON_IMAGE, **cases.LOOSE, **wide.ON_WINDOWS}
    for place, names in {"library.py": library.DECLARED, "cases.py or wide.py": drawn, "coverage.py": coverage.NUMBERS}.items():
        for name in sorted(set(names) ^ set(model.CALLS)):
            yield f"{name}: {place} has it and the model has not, or the other way round"


def wrong_calls():
    """Declared calls whose arguments, lent slices or fields beside a refusal are not those of the model's call."""
    for name, (result, *kinds) in library.DECLARED.items():
        call = model.CALLS[name]
        lent = tuple(i for i, kind in enumerate(kinds) if kind in library.LENT_KINDS)
        if len(inspect.signature(call).parameters) != len(kinds) or lent != call.lent:
            yield f"{name}: its arguments are not the model's"
        if library.has_number(result) and library.answered(result, result()) != (0, call.zero, NOWHERE):
            yield f"{name}: the fields of its answer are not the model's"


def wrong():
    """Everything of library.py that is not as the model has it."""
    names = list(wrong_names())
    return names or [*wrong_values(), *wrong_calls()]
