"""The free ground (document 02, 1/13), block by block, and of a card with many blocks by what is between its slots."""

import struct

import card
from units import Refused, call

MANY = 10000


def free_runs(held):
    """Document 02, 1/13: "all maximal runs of usable blocks that no used slot covers, each once, ascending"."""
    first, last = held.usable
    taken = set()
    for record in held.used.values():
        taken.update(range(record.first_lba, record.last_lba + 1))
    runs = []
    for block in range(first, last + 1):
        if block in taken:
            continue
        if runs and sum(runs[-1]) == block:
            runs[-1] = (runs[-1][0], runs[-1][1] + 1)
        else:
            runs.append((block, 1))
    return runs


def free_runs_between(held):
    """The same of a card that has too many blocks to go through them: what is left before, between and behind the used slots, which share no
    block and are all usable, as the check has found."""
    first, last = held.usable
    runs = []
    for low, high in sorted((record.first_lba, record.last_lba) for record in held.used.values()):
        if first < low:
            runs.append((first, low - first))
        first = high + 1
    return [*runs, (first, last - first + 1)] if first <= last else runs


@call(zero=(0,), lent=(0, 2, 3))
def card_free_runs(img, b, starts, lengths):
    """Document 02, 1/13: the check, then 15 "exactly if either row is shorter than the count"; starts and lengths in rows of
    64-bit numbers, "places after the count stay"."""
    held = card.check(img, b)
    runs = free_runs(held) if held.last < MANY else free_runs_between(held)
    for step, row in (("starts", starts), ("lengths", lengths)):
        if len(row) // 8 < len(runs):
            raise Refused(15, step)
    covered = sum(record.last_lba - record.first_lba + 1 for record in held.used.values())
    if sum(length for _, length in runs) + covered != held.usable[1] - held.usable[0] + 1:
        raise RuntimeError("the runs and the used slots do not add up to the usable blocks")
    for k, (start, length) in enumerate(runs):
        struct.pack_into("<Q", starts, 8 * k, start)
        struct.pack_into("<Q", lengths, 8 * k, length)
    return (len(runs),)
