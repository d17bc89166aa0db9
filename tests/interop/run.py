#!/usr/bin/env python3
"""Cards that we lay are read and verified by sgdisk, sfdisk, fdisk and parted (sgdisk and sfdisk at 512 alone), and cards that they make are checked, listed and changed by us.
Tables that the card check refuses, of theirs and of an independent maker, are read by UEFI (document 02, 9/13).

Run by `make interop`, which builds libcard.so first. Every step is a line; a step that fails says what it saw and makes the exit status 1.
"""
import os
import subprocess
import sys
import tempfile
import uuid

ROOT = os.path.dirname(os.path.dirname(os.path.dirname(os.path.abspath(__file__))))
sys.path[:0] = [os.path.join(ROOT, "hosts", "python"), os.path.join(ROOT, "tests", "example")]
sys.dont_write_bytecode = True
import card  # noqa: E402
import make_card  # noqa: E402

os.environ["PATH"] += ":/usr/sbin:/sbin"
os.environ["LC_ALL"] = "C"
DISK = uuid.UUID("5a3f1c20-11e7-4b6d-9c04-0242ac110000")
steps = failures = 0


def step(what, ok, saw=""):
    global steps, failures
    steps += 1
    if not ok:
        failures += 1
    print(f"{'ok  ' if ok else 'FAIL'} {what}" + (f"\n     {saw.strip()[:600]}" if not ok else ""))


def run(*words, text=None, env=None):
    done = subprocess.run(words, input=text, capture_output=True, text=True, env={**os.environ, **(env or {})})
    return done.returncode, done.stdout + done.stderr


def usable(blocks, size):
    per = 16384 // size
    return 2 + per, blocks - per - 2


def our_card(blocks, size, used):
    """A card with slots spread evenly over the usable blocks, the last one up to the last block."""
    image = bytearray(blocks * size)
    card.lay(image, size, DISK)
    first, last = usable(blocks, size)
    share = (last - first + 1) // used if used else 0
    for s in range(used):
        from_block = first + s * share
        to_block = last if s == used - 1 else from_block + share - 1
        card.put(image, size, s + 1, card.Record(card.BASIC_DATA, uuid.UUID(int=s + 1), from_block, to_block, name=f"map {s + 1}"))
    return image


def spans(image, size):
    return [(e.slot, e.record.first, e.record.last) for e in card.listing(image, size)]


def sgdisk_spans(path):
    lines = run("sgdisk", "-p", path)[1].splitlines()
    return [tuple(int(w) for w in line.split()[:3]) for line in lines if line.split()[:1] and line.split()[0].isdigit()]


def fdisk_spans(path, size):
    lines = run("fdisk", "-b", str(size), "-l", "-o", "Device,Start,End", path)[1].splitlines()
    return [(int(w[0][len(path):]), int(w[1]), int(w[2])) for w in (line.split() for line in lines) if len(w) == 3 and w[0].startswith(path)]


def parted_spans(path, size):
    code, said = run("parted", "-s", "-m", path, "unit", "s", "print", env={"PARTED_SECTOR_SIZE": str(size)})
    if code or ":unknown:" in said:
        return said
    return [tuple(int(w.rstrip("s")) for w in line.split(":")[:3]) for line in said.splitlines()[2:]]


def accepted_by_all(what, path, image, size):
    """Every tool reads the file as the card that it is."""
    with open(path, "wb") as f:
        f.write(image)
    want = spans(image, size)
    if size == 512:
        code, said = run("sgdisk", "-v", path)
        step(f"{what}: sgdisk -v finds no problems", code == 0 and "No problems found" in said, said)
        step(f"{what}: sgdisk -p lists the same slots", sgdisk_spans(path) == want, str(sgdisk_spans(path)[:3]))
        code, said = run("sfdisk", "--verify", path)
        step(f"{what}: sfdisk --verify finds no errors", code == 0, said)
    code, said = run("fdisk", "-b", str(size), "-l", path)
    step(f"{what}: fdisk -l reads a gpt", code == 0 and "Disklabel type: gpt" in said and "corrupt" not in said, said)
    step(f"{what}: fdisk -l lists the same slots", fdisk_spans(path, size) == want, str(fdisk_spans(path, size)[:3]))
    found = parted_spans(path, size)
    if usable(len(image) // size, size)[0] == usable(len(image) // size, size)[1]:
        step(f"{what}: parted declines a card with one usable block, as it does with any maker's", isinstance(found, str) and ":unknown:" in found, str(found))
    else:
        step(f"{what}: parted lists the same slots", found == want, str(found)[:300])


def refusal(call):
    try:
        call()
        return 0
    except card.Refused as r:
        return r.number


def load(path):
    with open(path, "rb") as f:
        return bytearray(f.read())


def taken_over(what, path, size, want):
    """A card of another maker: it checks, lists, takes a put and a clear, and is still accepted."""
    image = load(path)
    step(f"{what}: our check accepts it", refusal(lambda: card.check(image, size)) == 0, str(refusal(lambda: card.check(image, size))))
    step(f"{what}: our listing is theirs", spans(image, size) == want, str(spans(image, size)))
    taken = [b for _, f, t in want for b in (f, t)]
    last = usable(len(image) // size, size)[1]
    record = card.Record(card.BASIC_DATA, uuid.UUID(int=77), last, last, name="ours")
    step(f"{what}: a put over their first slot's block is refused by 22", refusal(lambda: card.put(image, size, 9, card.Record(card.BASIC_DATA, uuid.UUID(int=7), taken[0], taken[0]))) == 22)
    card.put(image, size, 9, record)
    card.clear(image, size, want[0][0])
    accepted_by_all(f"{what}, slot 9 put and slot {want[0][0]} cleared by us", path, image, size)
    step(f"{what}: and lists both changes", spans(image, size) == want[1:] + [(9, last, last)], str(spans(image, size)))


def flags(folder):
    """Flags that sgdisk sets have their names here, and those that we put have their bits there."""
    path = os.path.join(folder, "flags.img")
    with open(path, "wb") as f:
        f.truncate(2048 * 512)
    run("sgdisk", "-a", "1", "-o", "-n", "1:40:99", "-n", "2:100:200", "-A", "1:set:2", "-A", "2:set:60", path)
    image = load(path)
    saw = [entry.record.flags for entry in card.listing(image, 512)]
    step("flags that sgdisk set have their names", saw == [card.Flags(legacy_bootable=True), card.Flags(owner=1 << 12)], str(saw))
    ours = card.Flags(required=True, legacy_bootable=True, owner=1 << 12)
    card.put(image, 512, 3, card.Record(card.BASIC_DATA, uuid.UUID(int=78), 300, 300, ours, "ours"))
    with open(path, "wb") as f:
        f.write(image)
    said = run("sgdisk", "-i", "3", path)[1]
    step("flags that we put have their bits in sgdisk", "Attribute flags: 1000000000000005" in said, said)


def others(folder):
    blocks = 2048
    path = os.path.join(folder, "theirs.img")

    def fresh(size, count):
        with open(path, "wb") as f:
            f.truncate(count * size)

    fresh(512, blocks)
    run("sgdisk", "-a", "1", "-o", "-n", "1:40:99", "-n", "2:100:200", "-c", "1:north", path)
    taken_over("a card that sgdisk made", path, 512, [(1, 40, 99), (2, 100, 200)])
    fresh(512, blocks)
    run("sgdisk", "-a", "1", "-o", "-n", "1:40:99", "-n", "2:100:200", "-u", f"1:{DISK}", "-u", f"2:{DISK}", path)
    step("a card that sgdisk made with one partition GUID in two slots: 16", refusal(lambda: card.check(load(path), 512)) == 16, str(refusal(lambda: card.check(load(path), 512))))
    run("sgdisk", "-u", "2:R", path)
    taken_over("the same card once sgdisk has drawn another GUID for slot 2", path, 512, [(1, 40, 99), (2, 100, 200)])
    fresh(512, blocks)
    run("sfdisk", path, text="label: gpt\nfirst-lba: 34\nlast-lba: 2014\nstart=50, size=10\nstart=60, size=100\n")
    taken_over("a small card that sfdisk made", path, 512, [(1, 50, 59), (2, 60, 159)])
    for size, count in ((512, blocks), (4096, 256)):
        fresh(size, count)
        run("fdisk", "-b", str(size), path, text="g\nn\n1\n40\n99\nn\n2\n100\n200\nw\n")
        taken_over(f"a small card that fdisk made at {size}", path, size, [(1, 40, 99), (2, 100, 200)])
    for size in (512, 4096):
        fresh(size, blocks)
        env = {"PARTED_SECTOR_SIZE": str(size)}
        for words in (("mklabel", "gpt"), ("mkpart", "a", "40s", "99s"), ("mkpart", "b", "100s", "200s")):
            run("parted", "-s", "-a", "none", path, *words, env=env)
        taken_over(f"a card that parted made at {size}", path, size, [(1, 40, 99), (2, 100, 200)])
    fresh(512, 32768)
    run("sfdisk", path, text="label: gpt\nstart=4096, size=10\n")
    step("a card of 16 MiB that sfdisk made has first usable 2,048: 16", refusal(lambda: card.check(load(path), 512)) == 16, str(refusal(lambda: card.check(load(path), 512))))


def by_uefi(what, image, size, want, stated=92, each=128, count=None):
    """Both tables are read by UEFI: the header's numbers, and the slots."""
    for table, name in ((card.FRONT, "front"), (card.BACK, "back")):
        number = refusal(lambda: card.uefi_listing(image, size, table))
        step(f"{what}: the {name} table is read by UEFI", number == 0, str(number))
        if number:
            continue
        header = card.uefi_header(image, size, table)
        saw = (header.size, header.entry_size, header.entries)
        step(f"{what}: the {name} header has its numbers", saw == (stated, each, header.entries if count is None else count), str(saw))
        saw = [(e.slot, e.record.first, e.record.last) for e in card.uefi_listing(image, size, table)]
        step(f"{what}: the {name} listing is theirs", saw == want, str(saw)[:300])


def theirs_by_uefi(folder):
    """Cards of the four tools, with other entry counts and usable blocks than a card has."""
    path, pair = os.path.join(folder, "uefi.img"), [(1, 80, 99), (2, 100, 200)]

    def fresh(size, blocks):
        with open(path, "wb") as f:
            f.truncate(blocks * size)

    for count in (16, 56, 128, 132, 256):
        fresh(512, 2048)
        code, said = run("sgdisk", "-a", "1", "-o", "-S", str(count), "-n", "1:80:99", "-n", "2:100:200", path)
        step(f"sgdisk makes {count} entries", code == 0, said)
        by_uefi(f"a card that sgdisk made with {count} entries", load(path), 512, pair, count=count)
        number = refusal(lambda: card.check(load(path), 512))
        step(f"a card that sgdisk made with {count} entries: our check gives {0 if count == 128 else 16}", number == (0 if count == 128 else 16), str(number))
    fresh(512, 32768)
    run("sfdisk", path, text="label: gpt\nstart=4096, size=10\n")
    by_uefi("a card of 16 MiB that sfdisk made", load(path), 512, [(1, 4096, 4105)], count=128)
    fresh(512, 32768)
    run("sfdisk", path, text="label: gpt\ntable-length: 64\nstart=4096, size=10\n")
    by_uefi("a card that sfdisk made with 64 entries", load(path), 512, [(1, 4096, 4105)], count=64)
    for size, blocks in ((512, 2048), (4096, 2048)):
        fresh(size, blocks)
        run("fdisk", "-b", str(size), path, text="g\nn\n1\n80\n99\nn\n2\n100\n200\nw\n" if size * blocks < 8 << 20 else "g\nn\n1\n280\n299\nn\n2\n300\n400\nw\n")
        by_uefi(f"a card that fdisk made at {size}", load(path), size, pair if size * blocks < 8 << 20 else [(1, 280, 299), (2, 300, 400)], count=128)
        fresh(size, blocks)
        for words in (("mklabel", "gpt"), ("mkpart", "a", "80s", "99s"), ("mkpart", "b", "100s", "200s")):
            run("parted", "-s", "-a", "none", path, *words, env={"PARTED_SECTOR_SIZE": str(size)})
        by_uefi(f"a card that parted made at {size}", load(path), size, pair, count=128)


def made_by_uefi():
    """Cards of the independent maker: headers of 92 to 4,096 stated bytes, entries of 128 to 4,096, and one thing wrong in each of some more."""
    want = [(1, 34, 65), (3, 66, 85), (16, 86, 94)]
    for size in (512, 4096):
        for stated in (92, 96, 128, 512, 4096):
            for each in (128, 256, 512, 1024, 2048, 4096):
                image = make_card.other_card(300, size, make_card.other_slots(each), each, 16, stated=min(stated, size), inside=b"another maker"[:min(stated, size) - 92])
                by_uefi(f"a header of {min(stated, size)} bytes and entries of {each} at {size}", image, size, want, min(stated, size), each, 16)
        wrong = {
            "a header of 91 bytes": (make_card.other_card(300, size, {}, stated=91), 29),
            "a header longer than its block": (make_card.other_card(300, size, {}, stated=size + 1), 29),
            "entries of 384": (make_card.other_card(300, size, {}, each=384), 7),
            "entries of 8,192": (make_card.other_card(300, size, {}, each=8192, count=4), 7),
            "entries of 64": (make_card.other_card(300, size, {}, each=64), 7),
        }
        good = bytearray(make_card.other_card(300, size, {}, stated=100))
        for block in (1, 299):
            good[block * size + 100] = 1
        wrong["a byte after the stated size"] = good, 30
        wrong["headers that name the block after theirs"] = make_card.other_card(300, size, {}, off=1), 31
        for what, (image, number) in wrong.items():
            for table, name in ((card.FRONT, "front"), (card.BACK, "back")):
                saw = refusal(lambda: card.uefi_listing(image, size, table))
                step(f"{what} at {size}, {name}: {number}", saw == number, str(saw))


def main():
    with tempfile.TemporaryDirectory() as folder:
        path = os.path.join(folder, "ours.img")
        for size, sizes in ((512, (68, 69, 2048, 16384)), (4096, (12, 13, 256, 2048))):
            for blocks in sizes:
                room = usable(blocks, size)[1] - usable(blocks, size)[0] + 1
                for used in sorted({0, 1, min(3, room), min(120, room), min(128, room)}):
                    accepted_by_all(f"{blocks} blocks of {size}, {used} used", path, our_card(blocks, size, used), size)
        others(folder)
        flags(folder)
        theirs_by_uefi(folder)
    made_by_uefi()
    print(f"interop: {steps} steps, {failures} failed")
    return 1 if failures else 0


if __name__ == "__main__":
    sys.exit(main())
