"""lay over what is there: file systems and the like by their marks, partitions of an MBR, and tables that stand at the end alone. None is laid over without --force; zeros and stale marks behind a table are."""
import os
import struct
import subprocess

import gpt
import straced
from bench import like, tool

BOOT = (510, b"\x55\xaa")
# What lay says, and bytes at their places, each from the document that defines them: see hosts/card/src/over.rs for their names.
MARKS = (
    ("an ext2, ext3 or ext4 file system", (1024 + 56, b"\x53\xef")),
    ("a FAT file system", (54, b"FAT12   "), BOOT),
    ("a FAT file system", (54, b"FAT16   "), BOOT),
    ("a FAT file system", (82, b"FAT32   "), BOOT),
    ("an exFAT file system", (3, b"EXFAT   "), BOOT),
    ("an NTFS file system", (3, b"NTFS    "), BOOT),
    ("an XFS file system", (0, b"XFSB")),
    ("a btrfs file system", (65536 + 64, b"_BHRfS_M")),
    ("an ISO 9660 file system", (16 * 2048, b"\x01CD001")),
    ("a squashfs file system", (0, b"hsqs")),
    ("a LUKS volume", (0, b"LUKS\xba\xbe")),
    ("a swap area", (4096 - 10, b"SWAPSPACE2")),
    ("a swap area", (16384 - 10, b"SWAPSPACE2")),
    ("a swap area", (65536 - 10, b"SWAPSPACE2")),
)
# The tools that make them, the length that they want, and what they are called with.
MAKERS = (
    ("an ext2, ext3 or ext4 file system", 4, "mkfs.ext4 -q -F a.img"), ("an ext2, ext3 or ext4 file system", 4, "mkfs.ext4 -q -F -b 1024 a.img"), ("a FAT file system", 4, "mkfs.vfat -F 12 a.img"),
    ("a FAT file system", 16, "mkfs.vfat -F 16 a.img"), ("a FAT file system", 64, "mkfs.vfat -F 32 a.img"), ("an exFAT file system", 16, "mkfs.exfat a.img"), ("an NTFS file system", 16, "mkfs.ntfs -q -F a.img"),
    ("an XFS file system", 320, "mkfs.xfs -q a.img"), ("a btrfs file system", 128, "mkfs.btrfs -q a.img"), ("a swap area", 4, "mkswap -p 4096 a.img"), ("a squashfs file system", 0, "mksquashfs full a.img -quiet -no-progress -noappend"),
    ("an ISO 9660 file system", 0, "xorriso -as mkisofs -quiet -o a.img full"), ("a LUKS volume", 32, "cryptsetup -q luksFormat --pbkdf pbkdf2 --pbkdf-force-iterations 1000 a.img key"),
)
THREE = {1: gpt.Entry(60, 65, "map", gpt.guid(1)), 3: gpt.Entry(66, 85, "roads", gpt.guid(3), gpt.TYPES["linux"]), 16: gpt.Entry(86, 90, "notes", gpt.guid(16))}


def marked(image, *marks):
    for place, data in marks:
        image = gpt.stored(image, place, data)
    return image


def words(what, does="writes over it", more=""):
    return f"card: a.img has {what}, and laying {does}. Nothing was changed. To lay it anew: card lay --force {more}a.img"


def lays(b, what, image, *more):
    """Laid at once."""
    b.store("a.img", image)
    b.equal(f"lay over {what} {' '.join(more)}: status and words", (b.run("lay", "a.img", *more)[1::2]), (0, ""))


def file_systems(b):
    """Each kind: refused, also before the back table of an empty card that was there once; laid by --force, and then a table stands in front."""
    zeros, back = bytes(1 << 20), gpt.card(2048)[-33 * 512:]
    for what, *marks in MARKS:
        image = marked(zeros, *marks)
        b.store("a.img", image)
        b.refuses(("lay", "a.img"), words(what))
        b.refuses(("lay", "a.img", "--dry-run"), words(what))
        b.refuses(("lay", "a.img", "-b", "4096"), words(what, more="-b 4096 "))
        b.says(("lay", "a.img", "--force", "--guid", gpt.DISK), like("card laid: {..}\n"))
        b.true(f"lay --force over {what}: the bytes", b.bytes("a.img") == gpt.over(image, 512, {}))
        b.equal(f"lay again, once a table stands before what is left of {what}: status", b.run("lay", "a.img").status, 0)
        for place, data in marks:
            lays(b, f"{what} with a mark a byte behind its place", marked(zeros, *(m for m in marks if m[0] != place), (place, bytes(len(data))), (place + 1, data)))
        b.store("a.img", image[:-len(back)] + back)
        b.refuses(("lay", "a.img"), words(what))
    for what, image in (("zeros", zeros), ("bytes of one kind", b"\xa5" * (1 << 20)), ("a boot sector of no kind", marked(zeros, BOOT)), ("the back table of an empty card", zeros[:-len(back)] + back)):
        lays(b, what, image)
        lays(b, what, image, "-b", "4096")


def applied(b):
    """A plan lays over none of it either, in the same words, whatever its other lines are."""
    b.store("plan", b"label: gpt\n1: size=64K\n")
    back = gpt.stored(gpt.foreign(400, 512, THREE, 256, 16), 0, bytes(34 * 512))
    for what, does, image in (("a FAT file system", "writes over it", marked(bytes(1 << 20), *MARKS[1][1:])), ("an MBR with 1 partition", "drops them", mbr(record(12))), ("a table at its end with 3 used slots", "drops them", back)):
        b.store("a.img", image)
        b.refuses(("apply", "plan", "a.img"), "card: 1 card not as planned", out="a.img: failed: " + words(what, does)[len("card: "):] + "\n")


def made(b):
    """Those that are really made, by the tools that the machine has."""
    os.mkdir(b.path("full"))
    b.store("full/map", b.rng.randbytes(100000))
    b.store("key", b"x" * 32)
    for what, length, line in MAKERS:
        if not tool(line.split()[0]):
            b.not_run(f"lay over {what} as {line.split()[0]} makes it", "it is not there")
            continue
        b.remove("a.img")
        if length:
            b.sparse("a.img", length << 20)
        done = subprocess.run(line.split(), cwd=b.folder, capture_output=True, text=True)
        if done.returncode:
            b.not_run(f"lay over {what}: {line}", (done.stderr.splitlines() or ["it fails"])[-1])
            continue
        old = os.stat(b.path("a.img"))
        b.says(("lay", "a.img"), err=words(what) + "\n", status=1)
        new = os.stat(b.path("a.img"))
        b.equal(f"lay over what {line} made: the file is as it was", (old.st_size, old.st_mtime_ns), (new.st_size, new.st_mtime_ns))


def record(kind, boot=0, start=2048, size=2048):
    return struct.pack("<BBBBBBBBII", boot, 0, 2, 0, kind, 0, 0, 0, start, size)


def mbr(*records):
    return marked(bytes(1 << 20), (446, b"".join(records)), BOOT)


def other_tables(b):
    """Partitions of an MBR, but for the record that protects a GPT."""
    protective = record(0xEE, start=1, size=2047)
    for what, image in (("1 partition", mbr(record(12))), ("2 partitions", mbr(record(0x83, 0x80), record(0), record(5))), ("4 partitions", mbr(*[record(7)] * 4)), ("1 partition", mbr(protective, record(12)))):
        b.store("a.img", image)
        b.refuses(("lay", "a.img"), words(f"an MBR with {what}", "drops them"))
        b.refuses(("lay", "a.img", "-b", "4096"), words(f"an MBR with {what}", "drops them", "-b 4096 "))
        b.store("a.img", gpt.stored(gpt.card(2048), 0, image[:512]))
        b.refuses(("lay", "a.img"), words(f"an MBR with {what}", "drops them"))
        b.equal("lay --force", b.run("lay", "a.img", "--force").status, 0)
        b.equal("lay again", b.run("lay", "a.img").status, 0)
    for what, image in (("a protective MBR alone", mbr(protective)), ("an MBR without partitions", mbr()), ("records without the mark", gpt.stored(mbr(record(12)), 510, bytes(2))),
                        ("a record of no blocks", mbr(record(12, size=0))), ("a record that is none", mbr(record(12, boot=0x33)))):
        lays(b, what, image)
    if not tool("sfdisk"):
        return b.not_run("lay over an MBR of sfdisk", "it is not there")
    b.store("a.img", bytes(4 << 20))
    subprocess.run(["sfdisk", "-q", "a.img"], cwd=b.folder, input=b"label: dos\n,1M,c\n,,83\n", capture_output=True)
    b.refuses(("lay", "a.img"), words("an MBR with 2 partitions", "drops them"))


def ends(b):
    """A table at the end of the file, whose front one is gone: another maker's, and ours."""
    for size in (512, 4096):
        room = 400 * size
        for each, count in ((128, 16), (256, 16), (128, 132)):
            image = gpt.stored(gpt.foreign(400, size, THREE, each, count), 0, bytes(40 * size))
            b.store("a.img", image)
            for given in ((), ("-b", "512"), ("-b", "4096")):
                b.refuses(("lay", "a.img", *given), words("a table at its end with 3 used slots", "drops them", f"{' '.join(given)} " if given else ""))
            b.store("a.img", gpt.stored(image, room - size, b"X"))
            b.equal(f"lay over a table at the end whose header is gone too, {count} entries of {each} at {size}: status", b.run("lay", "a.img").status, 0)
        lays(b, f"a table at the end without slots, at {size}", gpt.stored(gpt.foreign(400, size, {}, 256, 16), 0, bytes(40 * size)))
        ours = gpt.stored(gpt.card(400, size, THREE), 0, bytes(40 * size))
        b.store("a.img", ours)
        b.refuses(("lay", "a.img", "-b", size), f"card: a.img is a card with 3 used slots, and laying drops them. Nothing was changed. To lay it anew: card lay --force -b {size} a.img")
    long_file(b)


def long_file(b):
    """The same of a file that is longer than memory should be."""
    image, length = gpt.foreign(400, 512, THREE, 256, 16), 8 << 30
    far = length // 512 - 1
    array = gpt.array_of(THREE, 256, 16)
    head = gpt.header(far, 1, (40, far - 40), gpt.DISK, far - 8, array, 256)
    b.sparse("a.img", length)
    with open(b.path("a.img"), "r+b") as f:
        f.seek((far - 8) * 512)
        f.write(array.ljust(8 * 512, b"\0") + head.ljust(512, b"\0"))
    b.true("a table of 16 entries", len(image) == 400 * 512 and len(array) == 4096)
    done = b.run("lay", "a.img")
    if done.err == "card: a.img: Cannot allocate memory\n":
        return b.not_run("a table at the end of 8 GiB", "so much cannot be mapped here")
    b.equal("lay over a table at the end of 8 GiB", (done.status, done.err), (1, words("a table at its end with 3 used slots", "drops them") + "\n"))


def failing(b):
    """A read that fails is no answer: nothing is laid."""
    if straced.missing():
        return b.not_run("lay over file systems and tables at the end where a read fails", straced.missing())
    back = gpt.stored(gpt.foreign(400, 512, THREE, 256, 16), 0, bytes(34 * 512))
    for what, image in (("a file system", marked(bytes(1 << 20), *MARKS[0][1:])), ("a table at the end", back)):
        for count in range(1, 9):
            b.store("a.img", image)
            done = b.run("lay", "a.img", before=straced.injected(b.path("a.img"), "pread64", f"error=EIO:when={count}"))
            b.true(f"lay over {what} with EIO at read {count}: refused or failed, and no byte changes", done.status in (1, 3) and b.bytes("a.img") == image, done)


def run(b):
    for test in (file_systems, applied, made, other_tables, ends, failing):
        test(b)
