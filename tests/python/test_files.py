"""Cards in files of any size (card.Card): beside the same calls on an image, by what is read and written of the file, where reading and writing fail, and the numbers of the calls on windows.
It ends with "python: N tests of files ok", or with exit status 1.
"""
import array
import contextlib
import ctypes
import errno
import io
import os
import pathlib
import random
import resource
import shutil
import subprocess
import sys
import tempfile
import unittest
import unittest.mock
import uuid

ROOT = pathlib.Path(__file__).resolve().parent.parent.parent
sys.path.insert(0, str(ROOT / "hosts" / "python"))
sys.dont_write_bytecode = True
import card  # noqa: E402 (the package is found by the lines above)
import card._library as library  # noqa: E402
import card._structs as structs  # noqa: E402
from card._buffers import lent  # noqa: E402
from card._records import record_in  # noqa: E402

DISK = uuid.UUID("5a3f1c20-11e7-4b6d-9c04-0242ac110000")
SMALLEST = ((512, 68, 34), (4096, 12, 6))  # block size, blocks, the only usable one
MEMORY = "/dev/shm" if os.access("/dev/shm", os.W_OK) else None  # a disk takes milliseconds for each stored block
UNKNOWN = "since something failed the tables were not read again"


def record(first, last, name="map", guid=None):
    """A record with these blocks, and with a GUID by the first of them."""
    return card.Record(card.BASIC_DATA, guid or uuid.UUID(int=first), first, last, card.Flags(required=True, owner=7), name)


def whole(size, more=2):
    """A card of so many usable blocks more than the smallest, with odd bytes behind it. Slot 33 has the first usable block."""
    _, blocks, usable = SMALLEST[size == 4096]
    image = bytearray(b"\xa5") * ((blocks + more) * size + 100)
    card.lay(image, size, DISK)
    card.put(image, size, 33, record(usable, usable))
    return image


def answer(call):
    """What a call gives, or by what it was refused. A failure of the file is neither."""
    try:
        return call()
    except card.Refused as refusal:
        return "refused", refusal.number, refusal.slot, refusal.place, refusal.differs


@contextlib.contextmanager
def noted(fails_at=None, most=None):
    """What is read, written and synced, in order; the n-th of these can be made to fail, and each be made to do no more than a few bytes."""
    done, real = [], {name: getattr(os, name) for name in ("pread", "pwrite", "fsync")}

    def turn():
        if len(done) + 1 == fails_at:
            raise OSError(errno.EIO, "pulled")

    def pread(file, count, place):
        turn()
        data = real["pread"](file, min(count, most or count), place)
        done.append(("read", place, len(data)))
        return data

    def pwrite(file, data, place):
        turn()
        done.append(("wrote", place, real["pwrite"](file, data[: most or len(data)], place)))
        return done[-1][2]

    def fsync(file):
        turn()
        real["fsync"](file)
        done.append(("synced",))

    with unittest.mock.patch.multiple(os, pread=pread, pwrite=pwrite, fsync=fsync):
        yield done


class Files(unittest.TestCase):
    def setUp(self):
        folder = pathlib.Path(tempfile.mkdtemp(dir=MEMORY))
        self.addCleanup(shutil.rmtree, folder)
        self.path = folder / "card.img"

    def opened(self, image, size, writable=True):
        """A card in a file of these bytes, closed at the test's end."""
        self.path.write_bytes(image)
        opened = card.Card.open(self.path, size, writable)
        self.addCleanup(opened.close)
        return opened

    def test_a_file_ends_as_the_image_does(self):
        for size, blocks, usable in SMALLEST:
            image, draw = bytearray(b"\xa5") * ((blocks + 19) * size + 100), random.Random(size)
            file = self.opened(image, size)
            file.lay(DISK)
            card.lay(image, size, DISK)
            for step in range(300):
                slot, first = draw.choice((0, 129, 1, 2, 3, 4, 5, 127, 128)), usable - 1 + draw.randrange(22)
                new = record(first, first + draw.randrange(3), f"map {step}", uuid.UUID(int=draw.randrange(9)))
                place, data = draw.randrange(3 * size), bytes([step & 255]) * draw.randrange(2 * size)
                ours, theirs = draw.choice((
                    (lambda: file.put(slot, new), lambda: card.put(image, size, slot, new)),
                    (lambda: file.put_staged(slot, new), lambda: card.put(image, size, slot, new)),
                    (lambda: file.clear(slot), lambda: card.clear(image, size, slot)),
                    (lambda: file.clear_staged(slot), lambda: card.clear(image, size, slot)),
                    (lambda: file.write_payload(slot, place, data), lambda: card.write_payload(image, size, slot, place, data)),
                    (lambda: file.read_payload(slot, place, len(data)), lambda: card.read_payload(image, size, slot, place, len(data))),
                    (lambda: file.payload_place(slot, place, len(data)), lambda: card.payload_place(image, size, slot, place, len(data))),
                    (file.repair_staged, lambda: None),
                    (lambda: (file.check(), file.disk_guid(), file.reader_copy()), lambda: (card.check(image, size), DISK, card.reader_copy(image, size))),
                    (lambda: (file.listing(), file.reader_listing(), file.free_runs()), lambda: (card.listing(image, size), card.listing(image, size), card.free_runs(image, size))),
                    (lambda: (file.slot_map(), file.lowest_free()), lambda: (card.slot_map(image, size), card.slot_map(image, size).lowest_free())),
                    (file.count, lambda: len(card.listing(image, size))),
                ))
                self.assertEqual(answer(ours), answer(theirs))
                by_slot = {entry.slot: entry.record for entry in card.listing(image, size)}
                want = by_slot.get(slot) if 1 <= slot <= 128 else ("refused", 18, 0, card.NOWHERE, 0)
                self.assertEqual((answer(lambda: file.get(slot)), answer(lambda: file.reader_get(slot))), (want, want))
                if step % 20 == 0:
                    self.assertEqual(self.path.read_bytes(), bytes(image))
            self.assertEqual(self.path.read_bytes(), bytes(image))
            self.assertEqual((file.blocks, file.block_size, file.writable), (blocks + 19, size, True))

    def test_labels_of_a_file_are_those_of_the_image(self):
        label = card.Label(0xE7E6, 12, 31, style=0xD7D6, sheet=9)
        for size, blocks, usable in SMALLEST:
            image = bytearray(b"\xa5") * ((blocks + 9) * size)
            with self.opened(image, size) as file:
                file.lay(DISK)
                card.lay(image, size, DISK)
                for slot, block in ((1, usable + 1), (2, usable + 2), (3, usable + 3), (128, usable)):
                    file.put(slot, record(block, block))
                    card.put(image, size, slot, record(block, block))
                for slot, changed in ((1, {}), (2, {"sheet": 8}), (3, {"style": 1}), (4, {}), (0, {}), (1, {"month": 13}), (129, {"day": 0})):
                    l = card.replace(label, **changed)
                    self.assertEqual(answer(lambda: file.write_label(slot, l)), answer(lambda: card.write_label(image, size, slot, l)), (slot, changed))
                for slot in (0, 1, 2, 3, 4, 128, 129):
                    self.assertEqual(answer(lambda: file.read_label(slot)), answer(lambda: card.read_label(image, size, slot)), slot)
                for slots in ([], [1], [1, 2, 1], [2, 1, 2], [1, 2, 3], [3, 1], [1, 4], [1, 0, 3], [128], [1, 128], [1, 1, 3, 3]):
                    self.assertEqual(answer(lambda: file.judge(slots)), answer(lambda: card.judge(image, size, slots)), slots)
            self.assertEqual(self.path.read_bytes(), bytes(image))

    def test_only_the_windows_and_the_payload_are_touched(self):
        for size, least, usable in SMALLEST:
            entries, blocks = 16384 // size, least + 2000
            windows = [("read", 0, 2 * size + 16384), ("read", (blocks - entries - 1) * size, size + 16384)]
            inside = 32 * 128 // size
            four = [("wrote", block * size, size) for block in (blocks - entries - 1 + inside, blocks - 1, 2 + inside, 1)]
            map_, synced = record(usable, usable + 9), ("synced",)
            self.path.write_bytes(b"\xa5" * (blocks * size + 100))
            with noted() as done, card.Card.open(self.path, size, writable=True) as file:
                def does(*want):
                    self.assertEqual(done, list(want))
                    done.clear()

                does(*windows)
                file.lay(DISK)
                does(*(("wrote", block * size, size) for block in (0, *range(blocks - entries - 1, blocks), *range(entries + 1, 0, -1))), synced)
                file.lay(uuid.UUID(int=1))
                does(four[1], four[3], synced)
                file.put(33, map_)
                does(*four, synced)
                file.put(33, map_)
                does(synced)
                self.assertEqual(answer(lambda: file.put(34, map_)), ("refused", 22, 33, card.NOWHERE, 0))
                self.assertEqual((file.count(), len(file.listing()), file.lowest_free(), file.get(33), file.check()), (1, 1, 1, map_, None))
                self.assertEqual((file.free_runs(), file.disk_guid()), ([range(usable + 10, blocks - entries - 1)], uuid.UUID(int=1)))
                self.assertEqual((file.reader_copy(), file.reader_array().nbytes, file.reader_listing()), (card.FRONT, 16384, [card.Entry(33, map_)]))
                does()
                file.clear(33)
                does(*four, synced)
                # A stage is one block and one sync, also where nothing changes.
                for call in (lambda: file.clear_staged(33), lambda: file.put_staged(33, map_)):
                    call()
                    does(*(step for block in four for step in (block, synced)))
                file.repair_staged()
                does(*(step for block in (blocks - 1, *range(blocks - entries - 1, blocks)) for step in (("wrote", block * size, size), synced)))
                self.assertEqual((file.write_payload(33, 700, b"7" * 1500), file.read_payload(33, 699, 3), file.write_payload(33, 10 * size, b"")), (1500, b"\xa577", 0))
                self.assertEqual(answer(lambda: file.write_payload(33, 10 * size, b"7"))[1], 24)
                file.sync()
                does(("wrote", usable * size + 700, 1500), ("read", usable * size + 699, 3), synced)

    def test_a_pulled_file_shows_one_table_and_is_repaired(self):
        for size, _, usable in SMALLEST:
            old, new = whole(size), whole(size)
            card.put(new, size, 128, record(usable + 1, usable + 1, "more"))
            for cut in range(5):
                file = self.opened(old, size)
                file.put_staged(128, record(usable + 1, usable + 1, "more"), stop_after=cut)
                shows = card.reader_listing(new if cut > 2 else old, size)
                with card.Card.open(self.path, writable=True) as again:
                    for seen in (file, again):
                        self.assertEqual((seen.reader_listing(), seen.reader_copy()), (shows, card.BACK if cut == 3 else card.FRONT))
                        self.assertEqual(answer(seen.check), answer(lambda: card.check(self.path.read_bytes(), size)))
                        self.assertEqual(bytes(seen.reader_array()[32 * 128 : 32 * 128 + 16]), card.BASIC_DATA.bytes_le)
                    for stages in range(1, 16384 // size + 3):
                        again.repair_staged(stop_after=stages)
                        self.assertEqual((again.block_size, again.reader_listing()), (size, shows))
                    again.check()
                self.assertEqual(self.path.read_bytes(), bytes(new if cut > 2 else old))

    def test_payload_goes_in_chunks_of_any_size(self):
        for size, _, usable in SMALLEST:
            data, want = bytes(k % 251 for k in range(3 * size)), whole(size, 5)
            card.put(want, size, 1, record(usable + 1, usable + 3))
            card.write_payload(want, size, 1, 0, data)
            self.assertEqual(card.read_payload(want, size, 1, 0, 3 * size), data)
            for chunk in (1, 7, 512, 4095, 5000, len(data)):
                file = self.opened(whole(size, 5), size)
                file.put(1, record(usable + 1, usable + 3))
                for at in range(0, len(data), chunk):
                    file.write_payload(1, at, memoryview(data)[at : at + chunk])
                self.assertEqual(b"".join(file.read_payload(1, at, min(chunk, len(data) - at)) for at in range(0, len(data), chunk)), data)
                self.assertEqual(self.path.read_bytes(), bytes(want))
            for slot, place, number in ((0, 0, 18), (129, 0, 18), (2, 0, 23), (1, 3 * size, 24), (1, (1 << 64) - 1, 24)):
                for call in (lambda: file.read_payload(slot, place, 1), lambda: file.write_payload(slot, place, b"1"), lambda: card.read_payload(want, size, slot, place, 1)):
                    self.assertEqual(answer(call)[1], number)
            for buffer in (array.array("I", [0x64636261]), bytearray(b"abcd"), memoryview(b"xabcd")[1:]):
                self.assertEqual((file.write_payload(1, 9, buffer), file.read_payload(1, 9, 4)), (4, b"abcd"))
            self.assertEqual(file.write_payload(1, 0, array.array("I")), 0)
            self.assertRaisesRegex(BufferError, "contiguous", file.write_payload, 1, 0, memoryview(b"abcd")[::2])
            self.assertRaisesRegex(TypeError, "the bytes to write must be a buffer", file.write_payload, 1, 0, "abcd")
            self.assertRaisesRegex(ValueError, "does not fit", file.read_payload, 1, -1, 1)

    def test_refusals_are_told_in_words_with_their_place(self):
        for size, blocks, _ in SMALLEST:
            last = (blocks + 1) * size
            for place, number, side in ((size, 4, card.FRONT), (size + 56, 5, card.FRONT), (2 * size, 6, card.FRONT), (last, 4, card.BACK), (last - 1, 6, card.BACK)):
                image = whole(size)
                image[place] ^= 1
                with self.opened(image, size) as file:
                    for call in (file.check, file.listing, file.count, file.free_runs, file.slot_map, file.disk_guid, lambda: file.get(1), lambda: file.clear(33),
                                 lambda: file.put_staged(1, record(1, 1)), lambda: file.read_payload(33, 0, 1)):
                        self.assertEqual(answer(call), ("refused", number, 0, side, 0))
                    self.assertEqual((file.reader_copy(), len(file.reader_listing())), (card.BACK if side == card.FRONT else card.FRONT, 1))
                    with self.assertRaises(card.Refused) as caught:
                        file.check()
                    self.assertIn("the front table" if side == card.FRONT else "the back table", str(caught.exception))
                self.assertEqual(self.path.read_bytes(), bytes(image))
        self.path.write_bytes(bytes(68 * 512 - 1))
        self.assertRaisesRegex(card.Refused, "^refused 10, BackupLbaToEarly: there is no room between the two tables$", card.Card.open, self.path, 512)
        self.assertRaisesRegex(card.Refused, "^refused 1, BadBlockSize", card.Card.open, self.path, 1024)
        self.assertRaisesRegex(card.Refused, "^refused 1, BadBlockSize", card.Card.open, self.path, 0)
        self.path.write_bytes(bytes(3 * 512 - 1))
        self.assertRaisesRegex(card.Refused, "^refused 8, ToSmallForBackup", card.Card.open, self.path, 512)
        self.assertRaisesRegex(card.Refused, "^refused 8, ToSmallForBackup", card.Card.open, self.path)

    def test_the_block_size_is_found(self):
        for size, _, _ in SMALLEST:
            for broken in (None, size, -100 - size):
                image = whole(size)
                if broken:
                    image[broken] ^= 1
                with self.opened(image, None, writable=False) as file:
                    self.assertEqual((file.block_size, len(file.reader_listing())), (size, 1))
        self.path.write_bytes(bytes(1 << 20))
        before = len(os.listdir("/proc/self/fd"))
        self.assertRaisesRegex(card.Refused, "^refused 27, NoGoodCopy: neither table", card.Card.open, self.path)
        # Tables by both sizes: what one of them is not told apart by is left to the caller.
        image = bytearray(1 << 20)
        card.lay(image, 512, DISK)
        back = bytes(image[-512 - 16384 :])
        card.lay(image, 4096, DISK)
        image[4096:8192], image[-4096 - 16384 :] = image[4096:8192], bytes(4096 - 512) + back
        front = bytearray(1 << 20)
        card.lay(front, 4096, DISK)
        image[: 8192 + 16384] = front[: 8192 + 16384]
        self.path.write_bytes(image)
        with self.assertRaisesRegex(ValueError, "has tables by both block sizes"):
            card.Card.open(self.path)
        self.assertEqual(len(os.listdir("/proc/self/fd")), before, "a file stayed open")
        for size in (512, 4096):
            with card.Card.open(self.path, size) as file:
                self.assertEqual((file.reader_copy(), file.reader_listing()), (card.BACK if size == 512 else card.FRONT, []))

    def test_a_failure_is_no_verdict_and_is_not_passed_over(self):
        def calls():
            with card.Card.open(self.path, 512, writable=True) as file:
                file.put(128, record(35, 35, "more"))
                file.clear_staged(128)
                file.write_payload(33, 5, b"north ridge")
                file.read_payload(33, 5, 11)
                file.sync()

        self.path.write_bytes(whole(512))
        with noted() as done:
            calls()
        for fails_at in range(1, len(done) + 1):
            self.path.write_bytes(whole(512))
            with noted(fails_at) as seen, self.assertRaisesRegex(OSError, "pulled"):
                calls()
            self.assertEqual(seen, done[: fails_at - 1])

    def test_after_a_failed_write_the_tables_are_read_again(self):
        for fails_at in range(1, 6):
            file = self.opened(whole(512), 512)
            with noted(fails_at), self.assertRaisesRegex(OSError, "pulled"):
                file.put(128, record(35, 35, "more"))
            for call in (file.check, file.count, file.listing, file.reader_copy, file.repair_staged, lambda: file.clear(1), lambda: file.read_payload(33, 0, 1)):
                with self.assertRaisesRegex(OSError, UNKNOWN) as caught:
                    call()
                self.assertEqual((caught.exception.errno, caught.exception.filename), (errno.EIO, self.path))
            file.reload()
            if answer(file.check):
                self.assertEqual(len(file.reader_listing()), 2 if fails_at == 4 else 1)
                file.repair_staged()
            file.put(128, record(35, 35, "more"))
            self.assertEqual(file.count(), 2)

    def test_reads_and_writes_of_a_few_bytes_go_on(self):
        want = whole(512)
        card.put(want, 512, 128, record(35, 35, "more"))
        card.write_payload(want, 512, 128, 5, b"north ridge")
        for most in (1, 100):
            self.path.write_bytes(whole(512))
            with noted(most=most), card.Card.open(self.path, 512, writable=True) as file:
                file.put_staged(128, record(35, 35, "more"))
                file.write_payload(128, 5, b"north ridge")
                self.assertEqual(file.read_payload(128, 5, 11), b"north ridge")
            self.assertEqual(self.path.read_bytes(), bytes(want))

    def test_a_file_that_changed_its_length_is_a_failure(self):
        image = whole(512)
        for length in (0, 34 * 512, len(image) - 101, len(image) + 512):
            for call in (lambda file: file.clear(33), lambda file: file.put_staged(33, record(34, 34)), lambda file: file.write_payload(33, 0, b"north")):
                file = self.opened(image, 512)
                os.truncate(self.path, length)
                cut = self.path.read_bytes()
                if length <= 34 * 512:
                    self.assertRaisesRegex(OSError, f"the file ends before byte {35 * 512}: it was longer", file.read_payload, 33, 500, 12)
                self.assertRaisesRegex(OSError, f"the file has {length} bytes, and had {len(image)} when its tables were read", call, file)
                self.assertRaisesRegex(OSError, UNKNOWN, file.check)
                self.assertEqual(self.path.read_bytes(), cut)
                refusal = answer(file.reload)
                self.assertEqual((refusal or answer(file.check))[1], 8 if not length else 10 if length < 68 * 512 else 16)

    def test_it_is_gone_through_and_says_what_it_is(self):
        image = whole(512)
        card.put(image, 512, 5, record(35, 35, "more"))
        with self.opened(image, 512) as file:
            self.assertEqual([(entry.slot, entry.record.name) for entry in file], [(5, "more"), (33, "map")])
            # The entries are those of the beginning, also where the loop changes the card.
            for entry in file:
                file.clear(entry.slot)
            self.assertEqual((list(file), file.count(), file.path, file.closed), ([], 0, self.path, False))
            self.assertEqual(repr(file), f"<card.Card {str(self.path)!r}: 70 blocks of 512 bytes, writable>")
        self.assertEqual((file.closed, repr(file)), (True, f"<card.Card {str(self.path)!r}: closed>"))
        self.assertRaisesRegex(ValueError, "the card is closed", iter, file)
        image[512] ^= 1
        with self.opened(image, 512, writable=False) as file:
            self.assertRaisesRegex(card.Refused, "refused 4,", iter, file)
            self.assertEqual(repr(file), f"<card.Card {str(self.path)!r}: 70 blocks of 512 bytes, read-only>")

    def test_a_card_that_is_only_read(self):
        with self.opened(whole(512), 512, writable=False) as file:
            self.assertEqual((file.count(), file.read_payload(33, 0, 2), file.writable), (1, b"\xa5\xa5", False))
            for call in (lambda: file.clear(33), lambda: file.lay(DISK), lambda: file.put(1, record(35, 35)), lambda: file.write_payload(33, 0, b"x"), file.repair_staged):
                self.assertRaisesRegex(io.UnsupportedOperation, "writable=True", call)
            file.check()
        self.assertEqual(self.path.read_bytes(), bytes(whole(512)))
        for call in (file.check, file.reload, file.sync, lambda: file.clear(33), file.__enter__):
            self.assertRaisesRegex(ValueError, "the card is closed", call)
        file.close()
        self.assertRaises(FileNotFoundError, card.Card.open, self.path.parent / "none", 512)
        with self.assertRaises(OSError):
            card.Card.open(self.path.parent, 512)

    def test_arguments_are_looked_at_before_anything_is_written(self):
        file = self.opened(whole(512), 512)
        with noted() as done:
            for call in (lambda: file.clear(1 << 32), lambda: file.get(-1), lambda: file.put(1, record(35, 1 << 64)), lambda: file.put_staged(1, record(35, 35, "a\0b"))):
                self.assertRaises(ValueError, call)
        self.assertEqual((done, self.path.read_bytes()), ([], bytes(whole(512))))

    def test_a_card_of_64_gib(self):
        for size in (512, 4096):
            blocks, entries = (64 << 30) // size, 16384 // size
            with open(self.path, "wb") as file:
                try:
                    file.truncate(64 << 30)
                except OSError as failure:
                    self.skipTest(f"there is no room for a file of 64 GiB with holes: {failure}")
            map_, tiny = record(2048, blocks // 2 - 1), record(blocks - entries - 2, blocks - entries - 2, "tiny")
            began = resource.getrusage(resource.RUSAGE_SELF)
            with noted() as done, card.Card.open(self.path, size, writable=True) as file:
                file.lay(DISK)
                file.put_staged(1, map_)
                file.put(file.lowest_free(), tiny)
                far = (blocks // 2 - 2048) * size - 11
                file.write_payload(1, far, b"north ridge")
                file.write_payload(2, 0, b"7" * size)
                file.sync()
                self.assertEqual(answer(lambda: file.read_payload(1, far, 12))[1], 24)
                self.assertEqual(file.read_payload(1, far - 1, 12), b"\0north ridge")
                self.assertEqual(file.listing(), [card.Entry(1, map_), card.Entry(2, tiny)])
                self.assertEqual(file.free_runs(), [range(entries + 2, 2048), range(blocks // 2, blocks - entries - 2)])
            ended = resource.getrusage(resource.RUSAGE_SELF)
            self.assertLess(ended.ru_utime + ended.ru_stime - began.ru_utime - began.ru_stime, 1)
            reads, writes = ([step for step in done if step[0] == kind] for kind in ("read", "wrote"))
            self.assertEqual(sum(count for _, _, count in reads), 3 * size + 2 * 16384 + 12)
            self.assertEqual((len(writes), sum(count for _, _, count in writes)), (3 + 4 + 4 + 2, 11 * size + 11 + size))
            self.assertLessEqual(os.stat(self.path).st_blocks * 512, 16 << 20)
            if size == 512:
                self.verified()

    def verified(self):
        """What sgdisk finds in the file, where it is installed."""
        program = shutil.which("sgdisk", path=os.environ.get("PATH", "") + ":/usr/sbin:/sbin")
        if not program:
            print("sgdisk did not look at the card of 64 GiB: it is not installed")
            return
        done = subprocess.run([program, "-v", self.path], capture_output=True, text=True, timeout=60)
        self.assertEqual((done.returncode, "No problems found" in done.stdout), (0, True), done.stdout + done.stderr)


class Windows(unittest.TestCase):
    """The numbers that come first in every call on windows, 1, 3, 8, 10 and 32, and those of a later stage, 1, 26 and 32."""

    def windows(self, size):
        """A head, a tail and the number of blocks, of a card with slot 33."""
        image = whole(size)[:-100]
        return image[: 2 * size + 16384], image[-size - 16384 :], len(image) // size

    def gives(self, number, call, head, tail, *rest):
        before = bytes(head), bytes(tail)
        with lent(head) as front, lent(tail) as back:
            self.assertEqual(call(*front, *back, *rest).number, number, (rest[:2], len(head), len(tail)))
        if number:
            self.assertEqual((bytes(head), bytes(tail)), before)

    def calls(self, usable):
        rows, starts, lengths = (structs.Row * 128)(), (ctypes.c_uint64 * 129)(), (ctypes.c_uint64 * 129)()
        listed, put = (ctypes.byref(rows), ctypes.sizeof(rows)), (1, record_in(record(usable + 1, usable + 1)))
        return ((library.card_window_check,), (library.card_window_count_used,), (library.card_window_read_slot, 1), (library.card_window_list, *listed),
                (library.card_window_free_runs, ctypes.byref(starts), 129, ctypes.byref(lengths), 129), (library.card_window_map_make,), (library.card_window_reader_copy,), (library.card_window_reader_slot, 1),
                (library.card_window_reader_list, *listed), (library.card_window_payload_place, 33, 0, 1), (library.card_window_lay, structs.Guid.from_buffer_copy(DISK.bytes_le)), (library.card_window_put, *put),
                (library.card_window_clear, 1), (library.card_window_start_put, *put), (library.card_window_start_clear, 1), (library.card_window_start_repair,))

    def test_the_numbers_that_come_first(self):
        for size, few, usable in SMALLEST:
            wrap = (1 << 64) // size
            for call, *rest in self.calls(usable):
                head, tail, blocks = self.windows(size)
                for b in (0, 511, 1024, (1 << 64) - 1):
                    self.gives(1, call, head, tail, (1 << 64) - 1, b, *rest)
                for number, counts in ((3, (wrap, (1 << 64) - 1)), (8, (0, 1, 2)), (10, (3, few - 1))):
                    for count in counts:
                        self.gives(number, call, head, tail, count, size, *rest)
                        self.gives(number, call, b"", b"", count, size, *rest)
                for count in (few, blocks, wrap - 1):
                    for wrong in ((head[1:], tail), (head + b"\0", tail), (head, tail[:-1]), (head, tail + b"\0"), (b"", b""), (tail, head)):
                        self.gives(32, call, *wrong, count, size, *rest)
                self.gives(0, call, head, tail, blocks, size, *rest)

    def test_the_numbers_of_a_later_stage(self):
        for size, _, _ in SMALLEST:
            wrap = (1 << 64) // size
            for start, go_on, rest in ((library.card_window_start_clear, library.card_window_next_stage, (33,)), (library.card_window_start_repair, library.card_window_next_repair, ())):
                head, tail, blocks = self.windows(size)
                with lent(head) as front, lent(tail) as back:
                    state = start(*front, *back, blocks, size, *rest).state
                self.assertEqual((state.next, state.len), (2, blocks * size))
                self.gives(1, go_on, b"", tail, 0, 513, 2, state)
                for stage, count in ((3, blocks), (1, blocks), (2, blocks - 1), (2, 0), (2, blocks + wrap), (2, (1 << 64) - 1)):
                    self.gives(26, go_on, head, tail, count, size, stage, state)
                    self.gives(26, go_on, head[1:], tail, count, size, stage, state)
                for wrong in ((head[1:], tail), (head, tail + b"\0"), (b"", b"")):
                    self.gives(32, go_on, *wrong, blocks, size, 2, state)
                self.gives(0, go_on, head, tail, blocks, size, 2, state)


if __name__ == "__main__":
    done = unittest.main(exit=False, verbosity=0).result
    if not done.wasSuccessful():
        sys.exit(1)
    print(f"python: {done.testsRun} tests of files ok")
