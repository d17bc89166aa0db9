"""label and screen: reading and writing a map's label, and the judgement of a set of maps."""
import gpt
from bench import like

ENTRIES = {s: gpt.Entry(30 + 10 * s, 31 + 10 * s, f"map {s}", gpt.guid(s)) for s in (1, 2, 3)}


def with_labels(*labels):
    image = gpt.card(128, entries=ENTRIES, fill=0xA5)
    for slot, raw in enumerate(labels, 1):
        image = gpt.stored(image, (30 + 10 * slot) * 512, raw)
    return image


def written(b):
    """Label writes: all three words on a map without a label, any of them on one with it; 13 bytes change."""
    for size in (512, 4096):
        image = gpt.card(128, size, ENTRIES, fill=0xA5)
        b.store("a.img", image)
        first = 40 * size
        b.says(("label", "a.img", "1", "--date", "2026-05-01", "--style", "3", "--sheet", "12", "-b", size), "slot 1: 2026-05-01, style 3, sheet 12, written and verified\n")
        b.true("label: the bytes", b.bytes("a.img") == gpt.stored(image, first, gpt.label(2026, 5, 1, 3, 12)))
        b.says(("label", "a.img", "1", "-b", size), "slot 1: 2026-05-01, style 3, sheet 12\n")
        for words, want, raw in ((("--style", "4"), "2026-05-01, style 4, sheet 12", (2026, 5, 1, 4, 12)), (("--sheet", "65535"), "2026-05-01, style 4, sheet 65535", (2026, 5, 1, 4, 65535)),
                                 (("--date", "1999-12-31"), "1999-12-31, style 4, sheet 65535", (1999, 12, 31, 4, 65535)), (("--date=0001-01-01", "--style=0", "--sheet=0"), "0001-01-01, style 0, sheet 0", (1, 1, 1, 0, 0)),
                                 (("--date", "2026-02-31"), "2026-02-31, style 0, sheet 0", (2026, 2, 31, 0, 0))):
            b.says(("label", "a.img", "1", *words, "-b", size), f"slot 1: {want}, written and verified\n")
            b.true(f"label {words}: the bytes", b.bytes("a.img") == gpt.stored(image, first, gpt.label(*raw)))
            b.says(("label", "a.img", "1", "-b", size), f"slot 1: {want}\n")
    b.store("a.img", with_labels())
    for words in (("--date", "2026-05-01"), ("--style", "3"), ("--date", "2026-05-01", "--style", "3"), ("--style", "3", "--sheet", "4"), ("--date", "2026-05-01", "--sheet", "4")):
        b.refuses(("label", "a.img", "1", *words), like("card: {..}; see: card help label\n"), 2)
    for words in (("--date", "x"), ("--date", "2026-05"), ("--date", "2026-05-01-01"), ("--date", "99999-01-01"), ("--style", "65536"), ("--sheet", "-1"), ("--sheet", "65536")):
        b.refuses(("label", "a.img", "1", "--date=2026-01-01", "--style=1", "--sheet=1", *words), like("card: {..}; see: card help label\n"), 2)


def wrong_labels(b):
    b.store("a.img", with_labels(gpt.label(2026, 5, 1, 3, 1), gpt.label(2026, 5, 1, 3, 1, version=2), gpt.label(2026, 13, 1, 3, 1)))
    b.refuses(("label", "a.img", "2"), like("card: slot 2 {..}a label of version 2, and only 1 is known. [35]\n"))
    b.refuses(("label", "a.img", "3"), like("card: slot 3 {..}month 13, day 1{..}. [36]\n"))
    b.refuses(("label", "a.img", "2", "--style", "3"), like("card: {..}; see: card help label\n"), 2)
    for date, why in (("2026-13-01", "month 13, day 1"), ("2026-00-10", "month 0, day 10"), ("2026-12-32", "month 12, day 32"), ("2026-01-00", "month 1, day 0")):
        b.refuses(("label", "a.img", "1", "--date", date), f"card: slot 1 not labelled: {why} is no date. Nothing was changed. [36]")
    all_three = ("--date", "2026-05-01", "--style", "3", "--sheet", "1")
    for slot, number, why in ((5, 23, "slot 5 is not used"), (0, 18, "there is no slot 0: a card has slots 1 to 128"), (200, 18, "there is no slot 200: a card has slots 1 to 128")):
        b.refuses(("label", "a.img", slot), f"card: slot {slot} not labelled: {why}. [{number}]")
        b.refuses(("label", "a.img", slot, *all_three), f"card: slot {slot} not labelled: {why}. Nothing was changed. [{number}]")
    b.store("a.img", with_labels())
    b.refuses(("label", "a.img", "3"), like("card: slot 3 {..}its map does not begin with FBM. [34]\n"))


def screens(b):
    one, other = gpt.label(2026, 5, 1, 3, 1), gpt.label(2026, 5, 1, 3, 99)
    b.store("a.img", with_labels(one, other, one))
    b.says(("screen", "a.img", "1", "2", "3"), "one date: 2026-05-01, style 3 (slots 1, 2, 3)\n")
    b.says(("screen", "a.img", "3", "1"), "one date: 2026-05-01, style 3 (slots 3, 1)\n")
    b.says(("screen", "a.img", "2"), like("one date: 2026-05-01, style 3 (slot{..} 2)\n"))
    b.refuses(("screen", "a.img"), "card: no slot was named. [38]")
    b.refuses(("screen", "a.img", "1", "200"), like("card: {..}there is no slot 200: a card has slots 1 to 128. [18]\n"))
    b.refuses(("screen", "a.img", "1", "5"), like("card: {..}slot 5 is not used. [23]\n"))
    for third, number, words in ((gpt.label(2026, 5, 2, 3, 1), 37, "not one date: slot 3 is dated 2026-05-02, style 3, and slot 1 2026-05-01, style 3"),
                                 (gpt.label(2026, 5, 1, 4, 1), 37, "not one date: slot 3 is dated 2026-05-01, style 4, and slot 1 2026-05-01, style 3"),
                                 (gpt.label(2025, 5, 1, 3, 1), 37, "not one date: slot 3 is dated 2025-05-01, style 3, and slot 1 2026-05-01, style 3"),
                                 (b"XBM" + one[3:], 34, "slot 3 has no label: its map does not begin with FBM"),
                                 (gpt.label(2026, 5, 1, 3, 1, version=2), 35, "slot 3 has a label of version 2, and only 1 is known"),
                                 (gpt.label(2026, 5, 1, 3, 1, version=256), 35, "slot 3 has a label of version 256, and only 1 is known"),
                                 (gpt.label(2026, 13, 1, 3, 1), 36, "slot 3 has no date: month 13, day 1"), (gpt.label(2026, 2, 32, 3, 1), 36, "slot 3 has no date: month 2, day 32")):
        b.store("a.img", with_labels(one, other, third))
        b.refuses(("screen", "a.img", "1", "2", "3"), f"card: {words}. [{number}]")
        b.says(("screen", "a.img", "1", "2"), "one date: 2026-05-01, style 3 (slots 1, 2)\n")
    b.store("a.img", with_labels(gpt.label(2026, 5, 2, 3, 1), one))
    b.refuses(("screen", "a.img", "2", "1"), "card: not one date: slot 1 is dated 2026-05-02, style 3, and slot 2 2026-05-01, style 3. [37]")


def run(b):
    written(b)
    wrong_labels(b)


def run_screen(b):
    screens(b)
