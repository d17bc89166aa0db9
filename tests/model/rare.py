"""What random values rarely reach, asked for on purpose in every round, so that a short run has seen each number of each call."""

import builder
import cases
import coverage
import damage
import ends
import images
import maps
import pulled
import states
import text_draws
import wide
from entries import record_bytes
from units import NIL

SHORT = [0, 1, 15, 439, 440, 443, 444, 511]
ON_SHORT = [name for name in cases.ON_IMAGE if name.startswith("gpt_mbr")]
SPOIL = ("signature", "signature", "own sum", "own sum", "layout", "array")


def ask_puts(rounds, steps, image, b, record):
    """A put of a record into an unused slot: with a map, plain, by its first stage and over windows."""
    slot = rounds.draw.pick([slot for slot in range(1, 129) if slot not in images.used_entries(image, b)])
    rounds.judge(steps, image, "card_map_put", (b, slot, record, maps.NONE))
    for name in ("card_put", "card_start_put"):
        rounds.judge(steps, image, name, (b, slot, record))
        rounds.judge(steps, image, ends.window_name(name), (ends.cut_of(image, b), b, slot, record))


def ask_twins(rounds, b):
    """22 where a lower slot has the GUID, 25 of the nil GUID, a state with a slot that is none, and an entry in both tables that cannot stand there."""
    draw = rounds.draw
    steps, image = wide.some_card(rounds, b)
    guids, blocks = images.used_guids(image, b), images.used_blocks(image, b)
    low, high = sorted(draw.random.sample(sorted(blocks), 2))
    new = draw.record()._replace(part_type_guid=draw.any_guid(), reserved=0)
    ask_puts(rounds, steps, image, b, new._replace(part_guid=guids[low], first_lba=blocks[high][0], last_lba=blocks[high][1]))
    free = draw.pick(images.free_blocks(image, b))
    ask_puts(rounds, steps, image, b, new._replace(part_guid=NIL, first_lba=free, last_lba=free))
    state = states.update(draw, image, b)._replace(next=3, slot=draw.pick((0, 129, 257, 2**32 - 1)))
    rounds.judge(steps, image, "card_next_stage", (b, 3, state))
    rounds.judge(steps, image, "card_window_next_stage", (ends.cut_of(image, b), b, 3, state))
    own = new._replace(part_guid=draw.any_guid(), first_lba=free, last_lba=free)
    shared = own._replace(first_lba=blocks[low][1], last_lba=blocks[low][1])
    odd = draw.pick((shared, shared, own._replace(last_lba=free - 1), own._replace(part_guid=guids[high])))
    sides = ("front", "back")
    slot = draw.pick([slot for slot in range(1, 129) if slot not in blocks])
    hurt = damage.in_arrays(images.places(len(image), b), sides, slot, 0, record_bytes(odd)) + [("seal", b, side == "front", True) for side in sides]
    hurt_image = images.made_from(image, hurt)
    rounds.judge(steps + hurt, hurt_image, "card_check", (b,))
    rounds.judge(steps + hurt, hurt_image, "card_reader_copy", (b,))
    ask_puts(rounds, steps + hurt, hurt_image, b, new)


def ask_ends(rounds, b):
    """Sums and products that pass 64 bits at the very last step: the builder's array start, a header's places, and the end of an entry."""
    draw = rounds.draw
    settings = builder.Settings(draw.guid(), 67 + draw.below(9), 0, 2**64 - 1, 128, 128, 0)
    rounds.judge([], None, "gpt_build", (settings, b))
    header = draw.header()._replace(first_usable=0, last_usable=2**64 - 1, num_parts=128, part_size=128)
    rounds.judge([], None, "gpt_build_from_header", (header._replace(current_lba=67 + draw.below(9), backup_lba=1), b))
    steps = [("start", 4 * b, 1 + draw.below(1 << 32))]
    image, end = images.made(steps), 2**64 // b
    for name, other in (("gpt_write_primary", 2**64 - 1), ("gpt_write_backup", 0)):
        inside = header._replace(part_start=1, num_parts=draw.below(5), current_lba=end + draw.below(3), backup_lba=other)
        rounds.judge(steps, image, name, (inside, b))
        rounds.judge(steps, image, name, (inside._replace(part_start=end + draw.below(3)), b))
    rounds.judge(steps, image, "gpt_write_entry", (draw.record()._replace(reserved=0), b // 128 - 1, end - 1, b, 128))


def ask_short(rounds, b):
    """The MBR's calls on an image that is too short for some of them."""
    steps = [("start", rounds.draw.pick(SHORT), 1 + rounds.draw.below(1 << 32))]
    image = images.made(steps)
    for name in ON_SHORT:
        rounds.judge(steps, image, name, cases.ON_IMAGE[name](rounds.draw, image, b))


def ask_checked(rounds, steps, image, b):
    """Some calls that begin with the card check, over windows too, on a card with one table spoilt, mostly the back one, or with another disk GUID."""
    draw = rounds.draw
    if images.places(len(image), b) is None:
        return
    side = draw.pick(("front", "back", "back"))
    hurt = pulled.spoil_copy(draw, image, b, side, SPOIL) if draw.chance(80) else damage.disk_guid(draw, image, b)
    image = images.made_from(image, hurt)
    for name in draw.random.sample(sorted(coverage.CHECKED), len(coverage.CHECKED) // 3):
        drawn = wide.arguments(draw, image, b, name) if name in wide.ON_WINDOWS else cases.ON_IMAGE[name](draw, image, b)
        rounds.judge(steps + hurt, image, name, drawn)


def ask_texts(rounds, b):
    """Each text call, and what UTF-8 leaves out of its tables."""
    for name, arguments in text_draws.CALLS.items():
        rounds.judge([], None, name, arguments(rounds.draw, b))
    for text in text_draws.left_out_texts(rounds.draw):
        rounds.judge([], None, "gpt_name_from_utf8", (text,))


def ask(rounds, steps, image, b):
    """All of this; the card check's places on an image twice."""
    for _ in range(2):
        ask_checked(rounds, steps, image, b)
    ask_twins(rounds, b)
    ask_ends(rounds, b)
    ask_short(rounds, b)
    ask_texts(rounds, b)
