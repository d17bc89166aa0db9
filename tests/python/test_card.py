"""The Python package beside what it promises: its names and types, which buffers it takes, what it refuses before the library is called, that a refused call changes no byte,
that nothing large is copied, what a cut between the stages leaves, and where it finds the library. It ends with "python: N tests ok", or with exit status 1.
"""
import array
import ast
import concurrent.futures
import contextlib
import copy
import ctypes
import dataclasses
import inspect
import mmap
import os
import pathlib
import pickle
import random
import re
import shutil
import struct
import subprocess
import sys
import tempfile
import traceback
import tracemalloc
import unittest
import unittest.mock
import uuid
import zlib

ROOT = pathlib.Path(__file__).resolve().parent.parent.parent
MODULE = ROOT / "hosts" / "python" / "card"
sys.path.insert(0, str(MODULE.parent))
sys.dont_write_bytecode = True
import card  # noqa: E402 (the package is found by the lines above)
import card._library as library  # noqa: E402
import card._structs as structs  # noqa: E402

# The public names of the module when it was one file, and what it said of itself by them. None may be lost.
NAMES = """BACK BASIC_DATA Card DISK_GUID Dated Entry FRESH FRONT Flags Header Label NOWHERE NUMBERS RUNS Record Refused Repair SLOT SlotMap Update check clear clear_mapped clear_staged crc32_next free_runs judge lay listing
next_repair next_stage payload_place put put_lowest put_mapped put_staged read_label read_payload reader_copy reader_listing repair_staged replace slot_map start_clear start_put start_repair uefi_header uefi_listing write_label
write_payload""".split()

DISK = uuid.UUID("5a3f1c20-11e7-4b6d-9c04-0242ac110000")
LARGE = 16 << 20


def record(first, last, name="map", **more):
    """A record with these blocks, and with a GUID by the first of them."""
    return card.Record(type=more.pop("type", card.BASIC_DATA), guid=more.pop("guid", uuid.UUID(int=first)), first=first, last=last, name=name, **more)


def laid(blocks=100, size=512):
    image = bytearray(b"\xa5") * (blocks * size)
    card.lay(image, size, DISK)
    return image


def resum(image, header, array):
    """Makes both sums of the header at a block right again, for the array at another."""
    at = header * 512
    image[at + 88 : at + 92] = zlib.crc32(image[array * 512 : array * 512 + 16384]).to_bytes(4, "little")
    image[at + 16 : at + 20] = bytes(4)
    image[at + 16 : at + 20] = zlib.crc32(image[at : at + 92]).to_bytes(4, "little")


def filled():
    """A card of 100 blocks with slot 3 in blocks 40 to 41."""
    image = laid()
    card.put(image, 512, 3, record(40, 41))
    return image


@contextlib.contextmanager
def large_image():
    """A card of 16 MiB and some blocks in a file, and one partition of 16 MiB on it. It gives the open file and its map."""
    with tempfile.TemporaryFile() as file:
        file.truncate(LARGE + 68 * 512)
        with mmap.mmap(file.fileno(), 0) as image:
            card.lay(image, 512, DISK)
            card.put(image, 512, 1, record(34, 33 + LARGE // 512))
            yield file, image


@contextlib.contextmanager
def little_memory(test):
    """What runs inside takes less than 1 MiB of the interpreter's memory."""
    tracemalloc.start()
    try:
        yield
        test.assertLess(tracemalloc.get_traced_memory()[1], 1 << 20)
    finally:
        tracemalloc.stop()


def refuse_in_a_process():
    card.clear(bytearray(3 * 512), 512, 1)


def collide_in_a_process():
    card.put(filled(), 512, 1, record(41, 41))


class Names(unittest.TestCase):
    def test_no_public_name_is_lost(self):
        self.assertEqual([name for name in NAMES if not hasattr(card, name)], [])
        self.assertLessEqual(set(NAMES), set(card.__all__))
        every = {}
        exec("from card import *", every)
        self.assertEqual(set(every) - {"__builtins__"}, set(card.__all__))

    def test_each_is_called_by_the_package_s_name(self):
        for name in card.__all__:
            value = getattr(card, name)
            if callable(value) and name not in ("Buffer", "WritableBuffer", "replace"):
                self.assertEqual((value.__module__, pickle.loads(pickle.dumps(value))), ("card", value))
        with self.assertRaises(card.Refused) as refused:
            card.check(b"", 512)
        self.assertEqual(traceback.format_exception_only(card.Refused, refused.exception), ["card.Refused: refused 8, ToSmallForBackup: the image is shorter than three blocks\n"])

    def test_fields_and_parameters_have_types(self):
        for name in card.__all__:
            value = getattr(card, name)
            if dataclasses.is_dataclass(value):
                self.assertEqual([field.name for field in dataclasses.fields(value) if field.type in (None, "tuple")], [], name)
                self.assertRaises(dataclasses.FrozenInstanceError, setattr, value.__new__(value), dataclasses.fields(value)[0].name, 0)
            elif inspect.isfunction(value) and value.__module__ == "card":
                signature = inspect.signature(value, **({"eval_str": True} if sys.version_info >= (3, 10) else {}))
                self.assertNotIn(inspect.Signature.empty, [signature.return_annotation, *(each.annotation for each in signature.parameters.values())], name)
        self.assertTrue((MODULE / "py.typed").exists())

    def test_a_struct_s_types_name_its_fields(self):
        for struct_ in vars(structs).values():
            if inspect.isclass(struct_) and issubclass(struct_, ctypes.Structure) and struct_ is not ctypes.Structure and struct_ is not structs.Held:
                self.assertEqual(list(struct_.__annotations__), [field[0] for field in struct_._fields_], struct_)

    def test_the_text_is_of_python_3_8(self):
        for path in MODULE.glob("*.py"):
            ast.parse(path.read_text(), str(path), feature_version=(3, 8))

    def test_the_examples_are_run(self):
        done = subprocess.run([sys.executable, "-m", "card"], env={**os.environ, "PYTHONPATH": str(MODULE.parent)}, capture_output=True, text=True, timeout=600)
        self.assertRegex(done.stdout, r"^card: [1-9]\d* examples, 0 failed\n$")


class Buffers(unittest.TestCase):
    def test_the_size_is_counted_in_bytes(self):
        numbers = array.array("I", [0]) * (68 * 512)
        card.lay(numbers, 512, DISK)
        data = numbers.tobytes()
        self.assertEqual(len(data), 4 * 68 * 512)
        self.assertEqual(data[-512:-504], b"EFI PART")
        card.check(data, 512)
        card.put(numbers, 512, 1, record(34, 4 * 68 - 35))
        self.assertEqual([entry.slot for entry in card.listing(numbers, 512)], [1])

    def test_a_payload_is_counted_in_bytes(self):
        image = filled()
        self.assertEqual(card.write_payload(image, 512, 3, 0, array.array("I", [0x64636261, 0x68676665])), 8)
        self.assertEqual(image[40 * 512:40 * 512 + 9], b"abcdefgh\xa5")

    def test_a_view_with_gaps_is_no_image(self):
        wide = bytearray(2 * 100 * 512)
        for view in (memoryview(wide)[::2], memoryview(wide)[::-1]):
            for call in (lambda: card.lay(view, 512, DISK), lambda: card.check(view, 512), lambda: card.listing(view, 512)):
                self.assertRaisesRegex(BufferError, "the image must be contiguous", call)
        self.assertEqual(wide, bytes(len(wide)))

    def test_a_view_with_gaps_is_no_payload(self):
        image = filled()
        before = bytes(image)
        self.assertRaisesRegex(BufferError, "the bytes to write must be contiguous", card.write_payload, image, 512, 3, 0, memoryview(b"abcdef")[::2])
        self.assertEqual(image, before)

    def test_every_buffer_is_a_payload(self):
        image = filled()
        with mmap.mmap(-1, 5) as mapped:
            mapped[:] = b"ridge"
            for data in (b"ridge", bytearray(b"ridge"), memoryview(b"a ridge")[2:], array.array("B", b"ridge"), mapped):
                image[40 * 512:42 * 512] = bytes(1024)
                self.assertEqual(card.write_payload(image, 512, 3, 1019, data), 5)
                self.assertEqual(image[40 * 512:42 * 512], bytes(1019) + b"ridge")

    def test_what_is_no_buffer_is_no_payload(self):
        image = filled()
        before = bytes(image)
        for data in (11, "ridge", [1, 2], None):
            self.assertRaisesRegex(TypeError, "the bytes to write must be a buffer", card.write_payload, image, 512, 3, 0, data)
        self.assertEqual(image, before)

    def test_what_is_no_buffer_is_no_image(self):
        for call in (lambda: card.check(68 * 512, 512), lambda: card.listing("card", 512), lambda: card.clear([0] * 34816, 512, 1)):
            self.assertRaisesRegex(TypeError, "the image must be a buffer", call)

    def test_empty_buffers(self):
        image = filled()
        for empty in (b"", bytearray(), memoryview(b""), array.array("I")):
            self.assertEqual(card.write_payload(image, 512, 3, 1024, empty), 0)
            with self.assertRaises(card.Refused) as caught:
                card.check(empty, 512)
            self.assertEqual(caught.exception.number, 8)

    def test_an_image_is_let_go(self):
        image = filled()
        card.check(image, 512)
        card.listing(image, 512)
        self.assertRaises(card.Refused, card.clear, image, 512, 129)
        self.assertRaises(BufferError, card.write_payload, image, 512, 3, 0, memoryview(b"abcdef")[::2])
        image.append(0)
        self.assertEqual(len(image), 100 * 512 + 1)


class ReadOnly(unittest.TestCase):
    def test_bytes_are_checked_and_listed(self):
        image = bytes(filled())
        for data in (image, memoryview(image), memoryview(bytearray(image)).toreadonly()):
            card.check(data, 512)
            self.assertEqual(card.listing(data, 512), [card.Entry(3, record(40, 41))])

    def test_one_slot_the_count_and_the_disk_guid(self):
        image = bytes(filled())
        self.assertEqual((card.get(image, 512, 3), card.get(image, 512, 4), card.count(image, 512), card.disk_guid(image, 512)), (record(40, 41), None, 1, DISK))
        self.assertEqual((card.reader_get(image, 512, 3), card.reader_get(image, 512, 128)), (record(40, 41), None))
        pulled = bytearray(image)
        pulled[512] ^= 1
        self.assertEqual(card.reader_get(pulled, 512, 3), record(40, 41))
        for call, number in ((lambda: card.get(image, 512, 0), 18), (lambda: card.reader_get(image, 512, 129), 18), (lambda: card.reader_get(bytes(len(image)), 512, 1), 27), (lambda: card.get(pulled, 512, 3), 4),
                             (lambda: card.count(pulled, 512), 4), (lambda: card.disk_guid(pulled, 512), 4), (lambda: card.disk_guid(image, 513), 1)):
            with self.assertRaises(card.Refused) as refused:
                call()
            self.assertEqual(refused.exception.number, number)

    def test_free_ground_is_ranges_of_blocks(self):
        image = filled()
        self.assertEqual(card.free_runs(bytes(image), 512), [range(34, 40), range(42, 67)])
        card.put(image, 512, 1, record(34, 39, guid=uuid.UUID(int=1)))
        self.assertEqual(card.free_runs(image, 512), [range(42, 67)])
        card.put(image, 512, 2, record(42, 66, guid=uuid.UUID(int=2)))
        self.assertEqual(card.free_runs(image, 512), [])
        with self.assertRaises(card.Refused) as refused:
            card.free_runs(image[:-512], 512)
        self.assertEqual((refused.exception.number, refused.exception.place), (16, card.FRONT))

    def test_a_slot_map_is_kept_through_calls(self):
        image = filled()
        beside = card.slot_map(bytes(image), 512)
        self.assertEqual((beside, beside.used(), beside.lowest_free()), (card.SlotMap(4, 0), 1, 1))
        slot, beside = card.put_lowest(image, 512, record(34, 34), beside)
        self.assertEqual((slot, beside), (1, card.SlotMap(5, 0)))
        beside = card.put_mapped(image, 512, 65, record(35, 35), beside)
        self.assertEqual((beside, card.slot_map(image, 512)), (card.SlotMap(5, 1), card.SlotMap(5, 1)))
        before = bytes(image)
        with self.assertRaises(card.Refused) as refused:
            card.put_lowest(image, 512, record(35, 36, guid=uuid.UUID(int=1)), beside)
        self.assertEqual((refused.exception.number, refused.exception.slot, bytes(image)), (22, 65, before))
        beside = card.clear_mapped(image, 512, 3, beside)
        self.assertEqual((beside, card.slot_map(image, 512)), (card.SlotMap(1, 1), card.SlotMap(1, 1)))
        with self.assertRaises(card.Refused) as refused:
            card.put_lowest(image, 512, record(40, 41), card.SlotMap((1 << 64) - 1, (1 << 64) - 1))
        self.assertEqual(refused.exception.number, 33)
        with self.assertRaises(ValueError):
            card.SlotMap(1 << 64, 0).used()

    def test_bytes_are_not_written(self):
        image = bytes(filled())
        before = bytes(bytearray(image))
        for call in (lambda: card.lay(image, 512, DISK), lambda: card.put(image, 512, 1, record(34, 34)), lambda: card.clear(image, 512, 3),
                     lambda: card.write_payload(image, 512, 3, 0, b"x")):
            self.assertRaisesRegex(TypeError, "the image is read-only", call)
        self.assertEqual(image, before)

    def test_a_read_only_map_is_read_without_a_copy(self):
        with large_image() as (file, _), mmap.mmap(file.fileno(), 0, access=mmap.ACCESS_READ) as image, little_memory(self):
            card.check(image, 512)
            self.assertEqual([entry.record.last for entry in card.listing(image, 512)], [33 + LARGE // 512])


class Payload(unittest.TestCase):
    def test_a_large_payload_is_not_copied(self):
        data = b"\x5a" * LARGE
        with large_image() as (_, image):
            with little_memory(self):
                self.assertEqual(card.write_payload(image, 512, 1, 0, data), LARGE)
            self.assertEqual(image[34 * 512:34 * 512 + LARGE], data)

    def test_a_part_of_the_image_is_no_payload(self):
        image = filled()
        before = bytes(image)
        whole = memoryview(image)
        for part in (whole, whole[:1], whole[-1:], whole[40 * 512:41 * 512], memoryview(whole[100:600])):
            self.assertRaisesRegex(ValueError, "part of the image", card.write_payload, image, 512, 3, 0, part)
        self.assertEqual(image, before)

    def test_an_image_inside_the_payload_is_refused(self):
        room = memoryview(bytearray(1 + 100 * 512 + 1))
        card.lay(room[1:-1], 512, DISK)
        card.put(room[1:-1], 512, 1, record(34, 60))
        before = bytes(room)
        for data in (room, room[:2], room[-2:]):
            self.assertRaisesRegex(ValueError, "part of the image", card.write_payload, room[1:-1], 512, 1, 0, data)
        self.assertEqual(bytes(room), before)

    def test_neighbours_of_the_image_are_a_payload(self):
        room = memoryview(bytearray(b"<") + bytes(100 * 512) + b">")
        card.lay(room[1:-1], 512, DISK)
        card.put(room[1:-1], 512, 1, record(34, 34))
        self.assertEqual(card.write_payload(room[1:-1], 512, 1, 0, room[:1]), 1)
        self.assertEqual(card.write_payload(room[1:-1], 512, 1, 1, room[-1:]), 1)
        self.assertEqual(bytes(room[1 + 34 * 512:1 + 34 * 512 + 3]), b"<>\0")


class Labels(unittest.TestCase):
    LABEL = card.Label(2026, 7, 14, style=3, sheet=1)

    def labelled(self):
        """A card with labels in slots 2, 3 and 4 (the last of another style revision), and slot 5 without one."""
        image = laid()
        for slot in (2, 3, 4, 5):
            card.put(image, 512, slot, record(40 + slot, 40 + slot))
        for slot, changed in ((2, {}), (3, {"sheet": 2}), (4, {"style": 4})):
            card.write_label(image, 512, slot, card.replace(self.LABEL, **changed))
        return image

    def test_a_label_is_written_and_read(self):
        image = self.labelled()
        before = bytes(image)
        card.write_label(image, 512, 5, card.Label(0x07EA, 12, 31, 0x0102, 0x0304))
        at = 45 * 512
        self.assertEqual(image[at : at + 13], b"FBM\x01\x00\xea\x07\x0c\x1f\x02\x01\x04\x03")
        self.assertEqual(card.read_label(bytes(image), 512, 5), card.Label(0x07EA, 12, 31, 0x0102, 0x0304))
        image[at : at + 13] = before[at : at + 13]
        self.assertEqual(image, before)

    def test_refused_labels(self):
        image = self.labelled()
        before = bytes(image)
        wrong = [(18, 0, {}), (23, 1, {"day": 0}), (36, 2, {"month": 0}), (36, 2, {"month": 13}), (36, 2, {"day": 0}), (36, 2, {"day": 32})]
        for number, slot, changed in wrong:
            with self.assertRaises(card.Refused) as refused:
                card.write_label(image, 512, slot, card.replace(self.LABEL, **changed))
            self.assertEqual(refused.exception.number, number)
        for number, slot in ((18, 129), (23, 1), (34, 5)):
            with self.assertRaises(card.Refused) as refused:
                card.read_label(image, 512, slot)
            self.assertEqual(refused.exception.number, number)
        self.assertEqual(image, before)
        image[42 * 512 + 4] = 1
        with self.assertRaisesRegex(card.Refused, "35, UnknownVersion"):
            card.read_label(image, 512, 2)
        with self.assertRaises(ValueError):
            card.write_label(image, 512, 2, card.replace(self.LABEL, month=256))

    def test_a_set_has_one_date(self):
        image = self.labelled()
        for slots in ([2, 3], [3, 2], (2, 2, 3, 2), range(2, 4)):
            self.assertEqual(card.judge(image, 512, slots), card.Dated(2026, 7, 14, 3))
        for slots, number, slot in (([], 38, 0), ([2, 0, 1], 18, 0), ([1, 129], 23, 1), ([3, 5, 0], 34, 5), ([2, 3, 4, 5], 37, 4), ([4, 2], 37, 2)):
            with self.assertRaises(card.Refused) as refused:
                card.judge(image, 512, slots)
            self.assertEqual((refused.exception.number, refused.exception.slot), (number, slot))
        with self.assertRaisesRegex(card.Refused, r"two dates or two style revisions \(slot 4\)"):
            card.judge(image, 512, [2, 4])
        with self.assertRaisesRegex(card.Refused, "refused 8, "):
            card.judge(b"", 512, [2])


class Arguments(unittest.TestCase):
    def test_a_name_with_a_zero_is_refused(self):
        image = filled()
        before = bytes(image)
        for name in ("a\0b", "\0", "map\0"):
            self.assertRaisesRegex(ValueError, "first zero", card.put, image, 512, 1, record(34, 34, name))
        self.assertEqual(image, before)

    def test_names_have_at_most_36_units(self):
        image = laid()
        for name in ("", "é" * 36, "🔥" * 18, "m\ud83d"):
            card.put(image, 512, 1, record(34, 34, name))
            self.assertEqual(card.listing(image, 512)[0].record.name, name)
        before = bytes(image)
        for name in ("é" * 37, "🔥" * 18 + "x"):
            self.assertRaisesRegex(ValueError, "at most 36", card.put, image, 512, 1, record(34, 34, name))
        self.assertEqual(image, before)

    def test_numbers_fit_their_width(self):
        image = filled()
        before = bytes(image)
        for call in (lambda: card.check(image, -1), lambda: card.check(image, 1 << 64), lambda: card.clear(image, 512, 1 << 32),
                     lambda: card.write_payload(image, 512, 3, -1, b"x"), lambda: card.put(image, 512, 1, record(34, 1 << 64)), lambda: card.Flags.of_bits(1 << 64),
                     lambda: card.put(image, 512, 1, record(34, 34, flags=card.Flags(owner=1 << 16))),
                     lambda: card.put(image, 512, 1, record(34, 34, flags=card.Flags(reserved=1 << 64)))):
            self.assertRaisesRegex(ValueError, "does not fit", call)
        self.assertRaises(TypeError, card.clear, image, 512, 3.0)
        self.assertRaises(TypeError, card.check, image, "512")
        self.assertEqual(image, before)


class Flags(unittest.TestCase):
    """Numbers from UEFI's table of attributes, with their names written down by hand."""

    NAMED = {
        0: card.Flags(),
        1: card.Flags(required=True),
        2: card.Flags(no_block_io=True),
        4: card.Flags(legacy_bootable=True),
        8: card.Flags(reserved=1),
        1 << 47: card.Flags(reserved=1 << 44),
        1 << 48: card.Flags(owner=1),
        0x8000000000000001: card.Flags(required=True, owner=0x8000),
        (1 << 64) - 1: card.Flags(True, True, True, (1 << 45) - 1, 0xFFFF),
    }

    def test_they_are_split_and_joined(self):
        for bits, flags in self.NAMED.items():
            self.assertEqual((card.Flags.of_bits(bits), flags.bits()), (flags, bits))

    def test_a_reserved_part_that_is_too_wide_is_not_joined(self):
        for reserved in (1 << 45, (1 << 64) - 1):
            self.assertRaisesRegex(card.Refused, "refused 28, ReservedFlag: a flag that UEFI keeps reserved", card.Flags(reserved=reserved).bits)

    def test_what_is_put_is_listed(self):
        image = laid()
        for flags in self.NAMED.values():
            if not flags.reserved:
                card.put(image, 512, 1, record(34, 34, flags=flags))
                self.assertEqual(card.listing(image, 512)[0].record.flags, flags)

    def test_a_number_is_no_flags(self):
        self.assertRaisesRegex(TypeError, "Flags.of_bits", card.put, laid(), 512, 1, record(34, 34, flags=1))


class Sums(unittest.TestCase):
    def test_a_cut_anywhere_sums_as_one_run(self):
        text = b"123456789"
        for cut in range(10):
            self.assertEqual(card.crc32_next(card.crc32_next(card.FRESH, text[:cut]), text[cut:]), 0xCBF43926)

    def test_an_array_is_summed_block_by_block(self):
        array = bytes(filled()[1024:1024 + 16384])
        for length in (1, 127, 128, 512, 4096, 4097, 16384):
            running = card.FRESH
            for at in range(0, 16384, length):
                running = card.crc32_next(running, memoryview(array)[at:at + length])
            self.assertEqual(running, zlib.crc32(array))

    def test_runs_of_zeros_are_summed_as_any_bytes(self):
        draw = random.Random(4)
        for _ in range(2000):
            text = bytearray(draw.randrange(40000))
            for _ in range(draw.randrange(30) if text else 0):
                text[draw.randrange(len(text))] = draw.randrange(256)
            cut = draw.randrange(len(text) + 1)
            running = draw.randrange(1 << 32)
            self.assertEqual(card.crc32_next(card.crc32_next(running, text[:cut]), text[cut:]), zlib.crc32(text, running))

    def test_it_goes_on_from_any_value_as_zlib_does(self):
        for running in (0, 1, 0x89ABCDEF, (1 << 32) - 1):
            self.assertEqual(card.crc32_next(running, b""), running)
            self.assertEqual(card.crc32_next(running, b"123456789"), zlib.crc32(b"123456789", running))

    def test_the_running_sum_fits_and_the_bytes_are_a_buffer(self):
        for running in (-1, 1 << 32):
            self.assertRaisesRegex(ValueError, "the running sum does not fit 32 bits", card.crc32_next, running, b"")
        self.assertRaises(TypeError, card.crc32_next, 0.0, b"")
        self.assertRaisesRegex(TypeError, "the bytes to sum must be a buffer", card.crc32_next, 0, "text")
        self.assertRaisesRegex(BufferError, "the bytes to sum must be contiguous", card.crc32_next, 0, memoryview(b"abcd")[::2])

    def test_large_bytes_are_not_copied(self):
        with large_image() as (_, image), little_memory(self):
            self.assertEqual(card.crc32_next(0, image), zlib.crc32(image))


def stages(image, size, state, go_on):
    """The image after each stage, the first one made already, and the state after the last. A stage changes no block but the one that its state names."""
    images = [bytes(image)]
    for stage in range(2, state.stages() + 1):
        state = go_on(image, size, stage, state)
        images.append(bytes(image))
        place = state.block(stage) * size
        if images[-2][:place] + images[-1][place:place + size] + images[-2][place + size:] != images[-1]:
            raise AssertionError(f"stage {stage} changed another block than {state.block(stage)}")
    return images, state


def shown(image, size=512):
    """The slots and names that the reader shows."""
    return [(entry.slot, entry.record.name) for entry in card.reader_listing(image, size)]


class Pulled(unittest.TestCase):
    """The stages of a put, a clear and a repair on an image, and the reader between them."""

    CARDS = ((512, 70, 34), (4096, 15, 6))

    def whole(self, size, blocks, usable):
        image = laid(blocks, size)
        card.put(image, size, 33, record(usable, usable))
        return image

    def updates(self, usable):
        """Each kind of update: how it begins, the plain call, and what the reader shows of the new table."""
        other, more = record(usable, usable + 1, "other"), record(usable + 1, usable + 1, "more")
        return ((lambda image, size: card.start_put(image, size, 33, other), lambda image, size: card.put(image, size, 33, other), [(33, "other")]),
                (lambda image, size: card.start_put(image, size, 128, more), lambda image, size: card.put(image, size, 128, more), [(33, "map"), (128, "more")]),
                (lambda image, size: card.start_clear(image, size, 33), lambda image, size: card.clear(image, size, 33), []))

    def test_an_update_shows_the_old_table_or_the_new_one(self):
        for size, blocks, usable in self.CARDS:
            for start, plain, new in self.updates(usable):
                image, after = self.whole(size, blocks, usable), self.whole(size, blocks, usable)
                plain(after, size)
                images, state = stages(image, size, start(image, size), card.next_stage)
                self.assertEqual([shown(data, size) for data in images], [[(33, "map")], [(33, "map")], new, new])
                self.assertEqual((bytes(image), state.next, state.stages()), (bytes(after), 5, 4))
                self.assertRaisesRegex(card.Refused, "refused 26, WrongStage: the state does not lead to this stage", card.next_stage, image, size, 5, state)

    def test_the_plain_calls_answer_by_the_check_between_the_stages(self):
        image = filled()
        images, _ = stages(image, 512, card.start_put(image, 512, 5, record(50, 50)), card.next_stage)
        said = []
        for data in images:
            try:
                card.check(data, 512)
                said.append(0)
            except card.Refused as refusal:
                said.append((refusal.number, refusal.place, refusal.differs))
        self.assertEqual(said, [(6, card.BACK, 0), (17, card.SLOT, 5), (6, card.FRONT, 0), 0])

    def test_the_reader_takes_the_front_else_the_back(self):
        image = filled()
        self.assertEqual((card.reader_copy(bytes(image), 512), shown(bytes(image))), (card.FRONT, [(3, "map")]))
        image[2 * 512] ^= 1
        self.assertEqual((card.reader_copy(image, 512), shown(image)), (card.BACK, [(3, "map")]))
        image[67 * 512] ^= 1
        for data, size, number in ((image, 512, 27), (image, 1024, 1), (image[:1024], 512, 8), (image[:67 * 512], 512, 10)):
            for call in (card.reader_copy, card.reader_listing, card.start_repair):
                with self.assertRaises(card.Refused) as caught:
                    call(data, size)
                self.assertEqual((caught.exception.number, caught.exception.place), (number, card.NOWHERE))

    def test_a_repair_never_changes_what_the_reader_shows(self):
        for size, blocks, usable in self.CARDS:
            whole = bytes(self.whole(size, blocks, usable))
            array = 16384 // size
            for back, header, first in ((False, blocks - 1, blocks - 1 - array), (True, 1, 2)):
                image = bytearray(whole)
                image[header * size:header * size + size] = b"\xa5" * size
                image[first * size:first * size + 16384] = b"\x5a" * 16384
                images, state = stages(image, size, card.start_repair(image, size), card.next_repair)
                self.assertEqual(({tuple(shown(data, size)) for data in images}, bytes(image)), ({((33, "map"),)}, whole))
                self.assertEqual((state.back, state.stages(), state.next, state.guid), (back, array + 2, array + 3, DISK))
                self.assertRaisesRegex(card.Refused, "refused 26", card.next_repair, image, size, state.next, state)

    def test_a_stage_that_is_not_the_next_changes_nothing(self):
        image = filled()
        state = card.start_put(image, 512, 5, record(50, 50))
        before = bytes(image)
        for stage, changed in ((3, {}), (0, {}), (1, {"next": 1}), (2, {"slot": 0}), (2, {"slot": 129}), (2, {"block_size": 4096}), (2, {"length": 100 * 512 + 1}), (5, {"next": 5})):
            self.assertRaisesRegex(card.Refused, "refused 26", card.next_stage, image, 512, stage, card.replace(state, **changed))
        self.assertRaisesRegex(card.Refused, "refused 1,", card.next_stage, image, 513, 2, state)
        self.assertRaisesRegex(card.Refused, "refused 26", card.next_stage, image + b"x", 512, 2, state)
        self.assertRaisesRegex(ValueError, "128", card.next_stage, image, 512, 2, card.replace(state, entry=bytes(127)))
        self.assertRaisesRegex(ValueError, "does not fit", card.next_stage, image, 512, 1 << 32, state)
        self.assertRaisesRegex(ValueError, "does not fit", card.next_stage, image, 512, 2, card.replace(state, length=1 << 64))
        self.assertEqual(image, before)
        self.assertEqual(pickle.loads(pickle.dumps(state)), state)

    def test_a_refused_start_changes_nothing(self):
        image = filled()
        before = bytes(image)
        for number, slot, call in ((18, 0, lambda: card.start_clear(image, 512, 129)), (22, 3, lambda: card.start_put(image, 512, 1, record(41, 50))),
                                   (25, 3, lambda: card.start_put(image, 512, 1, record(50, 50, guid=uuid.UUID(int=40))))):
            with self.assertRaises(card.Refused) as caught:
                call()
            self.assertEqual((caught.exception.number, caught.exception.slot), (number, slot))
        for call in (lambda: card.start_put(before, 512, 1, record(50, 50)), lambda: card.start_clear(before, 512, 3), lambda: card.start_repair(before, 512)):
            self.assertRaisesRegex(TypeError, "the image is read-only", call)
        self.assertEqual(image, before)


class PulledFiles(unittest.TestCase):
    """The stages on a file, cut after each of them."""

    def setUp(self):
        self.path = pathlib.Path(tempfile.mkdtemp()) / "card"
        self.addCleanup(shutil.rmtree, self.path.parent)
        self.path.write_bytes(filled())

    def test_a_cut_update_is_the_old_table_or_the_new_one(self):
        for call in (lambda stop: card.put_staged(self.path, 512, 5, record(50, 50, "new"), stop), lambda stop: card.clear_staged(self.path, 512, 3, stop)):
            whole = filled()
            self.path.write_bytes(whole)
            call(None)
            new = self.path.read_bytes()
            card.check(new, 512)
            for stop in range(5):
                self.path.write_bytes(whole)
                call(stop)
                self.assertEqual(shown(self.path.read_bytes()), shown(new if stop > 2 else whole))
                card.repair_staged(self.path, 512)
                card.check(self.path.read_bytes(), 512)
                self.assertEqual(self.path.read_bytes(), new if stop > 2 else whole)

    def test_a_cut_repair_shows_the_same(self):
        for broken in (512, 99 * 512):
            for stop in range(35):
                image = filled()
                image[broken] ^= 1
                self.path.write_bytes(image)
                card.repair_staged(self.path, 512, stop)
                self.assertEqual(shown(self.path.read_bytes()), [(3, "map")])
            self.assertEqual(self.path.read_bytes(), bytes(filled()))

    def test_each_block_is_flushed_before_the_next(self):
        made = []
        with unittest.mock.patch("os.pwrite", lambda file, data, place: made.append((place, len(data))) or len(data)), \
                unittest.mock.patch("os.fsync", lambda file: made.append("flushed")):
            card.put_staged(self.path, 512, 5, record(50, 50))
        self.assertEqual(made, [(68 * 512, 512), "flushed", (99 * 512, 512), "flushed", (3 * 512, 512), "flushed", (512, 512), "flushed"])
        self.assertEqual(self.path.read_bytes(), bytes(filled()))

    def test_a_device_that_takes_less_is_asked_again(self):
        real = os.pwrite
        with unittest.mock.patch("os.pwrite", lambda file, data, place: real(file, data[:100], place)):
            card.clear_staged(self.path, 512, 3)
        cleared = filled()
        card.clear(cleared, 512, 3)
        self.assertEqual(self.path.read_bytes(), bytes(cleared))

    def test_a_device_that_fails_leaves_the_old_table_or_the_new_one(self):
        real = os.fsync
        for fails in range(1, 5):
            self.path.write_bytes(filled())
            left = iter(range(fails - 1, -1, -1))
            with unittest.mock.patch("os.fsync", lambda file: real(file) if next(left) else os.close(-1)):
                self.assertRaises(OSError, card.clear_staged, self.path, 512, 3)
            self.assertEqual(shown(self.path.read_bytes()), [] if fails > 2 else [(3, "map")])

    def test_files_that_are_no_card(self):
        self.assertRaisesRegex(card.Refused, "refused 22", card.put_staged, self.path, 512, 1, record(40, 40))
        self.assertEqual(self.path.read_bytes(), bytes(filled()))
        self.path.write_bytes(b"")
        self.assertRaisesRegex(card.Refused, "refused 8", card.clear_staged, self.path, 512, 1)
        self.assertRaisesRegex(card.Refused, "refused 1,", card.repair_staged, self.path, 513)
        self.path.write_bytes(bytes(68 * 512))
        self.assertRaisesRegex(card.Refused, "refused 27", card.repair_staged, self.path, 512)
        self.assertRaises(FileNotFoundError, card.repair_staged, self.path.parent / "none", 512)

    def test_a_large_card_is_not_read_into_memory(self):
        with large_image() as (file, image), little_memory(self):
            card.put_staged(f"/proc/self/fd/{file.fileno()}", 512, 2, record(34 + LARGE // 512, 34 + LARGE // 512))
            self.assertEqual([entry.slot for entry in card.listing(image, 512)], [1, 2])


def other(stated=92, each=128, count=128, size=512, blocks=300):
    """A card of another maker, by UEFI alone: its sums are zlib's. Slot 2 is used, and slot 3 has bytes but no type."""
    entry = card.BASIC_DATA.bytes_le + uuid.UUID(int=5).bytes_le + struct.pack("<QQQ", 40, 41, 5) + "north".encode("utf-16-le").ljust(72, b"\0")
    array = bytearray(count * each)
    array[each : each + 128] = entry
    array[2 * each + 16 : 2 * each + 128] = entry[16:]
    image = bytearray(blocks * size)
    image[2 * size : 2 * size + len(array)] = array
    for own, theirs in ((1, blocks - 1), (blocks - 1, 1)):
        front = struct.pack("<8sII", b"EFI PART", 0x10000, stated)
        back = struct.pack("<IQQQQ16sQIII", 0, own, theirs, 200, 250, DISK.bytes_le, 2, count, each, zlib.crc32(array)) + bytes([7]) * (stated - 92)
        image[own * size : own * size + stated] = front + zlib.crc32(front + bytes(4) + back).to_bytes(4, "little") + back
    return image


class OtherMakers(unittest.TestCase):
    """The tables of other makers, by UEFI."""

    def test_headers_and_entries_of_other_sizes(self):
        for size, stated, each, count in ((512, 92, 128, 128), (512, 96, 256, 300), (512, 512, 4096, 16), (4096, 4096, 1024, 100), (4096, 100, 128, 256)):
            image = bytes(other(stated, each, count, size, 3000))
            for table, block, theirs in ((card.FRONT, 1, 2999), (card.BACK, 2999, 1)):
                header = card.uefi_header(image, size, table)
                want = ((1, 0), stated, 0, block, theirs, 200, 250, DISK, 2, count, each)
                saw = (header.revision, header.size, header.reserved, header.block, header.other_block, header.first_usable, header.last_usable, header.guid)
                self.assertEqual((*saw, header.array_block, header.entries, header.entry_size), want)
                self.assertEqual((header.sum, header.array_sum), struct.unpack_from("<I68xI", image, block * size + 16))
                entries = card.uefi_listing(image, size, table)
                self.assertEqual(entries, [card.Entry(2, record(40, 41, "north", guid=uuid.UUID(int=5), flags=card.Flags.of_bits(5)))])

    def test_more_than_128_slots(self):
        image = other(count=200)
        raw = image[1024 + 128 : 1024 + 256]
        image[1024 : 1024 + 200 * 128] = raw * 200
        for own in (1, 299):
            at = own * 512
            image[at + 88 : at + 92] = zlib.crc32(raw * 200).to_bytes(4, "little")
            image[at + 16 : at + 20] = bytes(4)
            image[at + 16 : at + 20] = zlib.crc32(image[at : at + 92]).to_bytes(4, "little")
        for table in (card.FRONT, card.BACK):
            self.assertEqual([entry.slot for entry in card.uefi_listing(image, 512, table)], list(range(1, 201)))

    def test_refusals_of_each_table(self):
        dirty, moved, odd = other(100), other(), other(each=384)
        dirty[512 + 100] = dirty[299 * 512 + 511] = 1
        moved[512:1024], moved[-512:] = moved[-512:], moved[512:1024]
        for image, size, numbers in ((dirty, 512, (30, 30)), (moved, 512, (31, 31)), (odd, 512, (7, 7)), (bytes(1023), 512, (2, 8)), (b"", 1024, (1, 1)), (bytes(4096), 512, (4, 4))):
            for table, number in zip((card.FRONT, card.BACK), numbers):
                with self.assertRaises(card.Refused) as caught:
                    card.uefi_listing(image, size, table)
                self.assertEqual((caught.exception.number, caught.exception.place), (number, card.NOWHERE))
        with self.assertRaises(card.Refused) as caught:
            card.uefi_header(other(93)[:512] + other(513, size=4096)[4096:4608] + bytes(512), 512)
        self.assertEqual(caught.exception.number, 29)

    def test_a_card_reads_alike(self):
        image = filled()
        self.assertEqual(card.uefi_listing(image, 512), card.listing(image, 512))
        self.assertEqual(card.uefi_listing(image, 512, card.BACK), card.listing(image, 512))

    def test_the_table_is_front_or_back(self):
        for call in (card.uefi_header, card.uefi_listing):
            for table in (card.NOWHERE, card.SLOT, "front"):
                with self.assertRaises(ValueError):
                    call(filled(), 512, table)


class Refusals(unittest.TestCase):
    def refused(self, number, slot, image, call, place=card.NOWHERE, differs=0):
        before = bytes(image)
        with self.assertRaises(card.Refused) as caught:
            call(image)
        refusal = caught.exception
        self.assertEqual((refusal.number, refusal.slot, refusal.place, refusal.differs), (number, slot, place, differs))
        self.assertEqual(bytes(image), before)
        return str(refusal)

    def test_a_refused_call_changes_nothing(self):
        image = filled()
        nil = uuid.UUID(int=0)
        self.refused(1, 0, image, lambda image: card.lay(image, 1024, DISK))
        self.refused(18, 0, image, lambda image: card.put(image, 512, 129, record(34, 34)))
        self.refused(19, 0, image, lambda image: card.put(image, 512, 1, record(34, 34, type=nil)))
        self.refused(20, 0, image, lambda image: card.put(image, 512, 1, record(35, 34)))
        self.refused(21, 0, image, lambda image: card.put(image, 512, 1, record(33, 34)))
        self.refused(22, 3, image, lambda image: card.put(image, 512, 1, record(41, 50)))
        self.refused(22, 3, image, lambda image: card.put(image, 512, 1, record(41, 50, guid=uuid.UUID(int=40))))
        self.refused(25, 3, image, lambda image: card.put(image, 512, 1, record(50, 50, guid=uuid.UUID(int=40))))
        for reserved in (1, 2**45 - 1, 2**45, 2**64 - 1):
            flags = card.Flags(reserved=reserved)
            self.refused(28, 0, image, lambda image: card.put(image, 512, 1, record(50, 50, flags=flags)))
            self.refused(25, 3, image, lambda image: card.put(image, 512, 1, record(50, 50, guid=uuid.UUID(int=40), flags=flags)))
            self.refused(22, 3, image, lambda image: card.put(image, 512, 1, record(41, 50, flags=flags)))
        self.refused(18, 0, image, lambda image: card.clear(image, 512, 0))
        self.refused(23, 0, image, lambda image: card.write_payload(image, 512, 1, 0, b"x"))
        self.refused(24, 0, image, lambda image: card.write_payload(image, 512, 3, 1021, b"ridge"))
        self.refused(24, 0, image, lambda image: card.write_payload(image, 512, 3, (1 << 64) - 1, b"ridge"))

    def test_an_image_that_is_no_card_is_not_changed(self):
        calls = (lambda image: card.check(image, 512), lambda image: card.listing(image, 512), lambda image: card.put(image, 512, 1, record(34, 34)),
                 lambda image: card.clear(image, 512, 3), lambda image: card.write_payload(image, 512, 3, 0, b"x"))
        for place, number in ((512, 4), (512 + 56, 5), (2 * 512, 6), (99 * 512, 4), (99 * 512 + 16, 5), (67 * 512 + 3, 6)):
            image = filled()
            image[place] ^= 1
            for call in calls:
                self.refused(number, 0, image, call, card.FRONT if place < 67 * 512 else card.BACK)
        for call in calls:
            self.refused(8, 0, bytearray(3 * 512 - 1), call)
            self.refused(10, 0, bytearray(67 * 512), call)

    def test_a_refusal_says_which_table_and_where(self):
        def check(image):
            card.check(image, 512)

        image = filled()
        image[67 * 512 + 4 * 128] ^= 1
        self.assertEqual(self.refused(6, 0, image, check, card.BACK), "refused 6, PartsCrc: the back table's entry check sum does not match")
        resum(image, 99, 67)
        self.assertEqual(self.refused(17, 0, image, check, card.SLOT, 5), "refused 17, Disagree: the two tables differ, first in slot 5")
        image[99 * 512 + 56] ^= 1
        resum(image, 99, 67)
        self.assertEqual(self.refused(17, 0, image, check, card.DISK_GUID), "refused 17, Disagree: the two tables have different disk GUIDs")
        image = filled()
        image[512 + 48] ^= 1
        resum(image, 1, 2)
        self.assertEqual(self.refused(16, 0, image, check, card.FRONT), "refused 16, WrongLayout: the front table is not laid out as a card's")
        image[512] ^= 1
        self.assertEqual(self.refused(4, 0, image, check, card.FRONT), "refused 4, InvalidGptSignature: the front table's header does not begin with EFI PART")
        image = filled()
        image[99 * 512 + 16] ^= 1
        self.assertEqual(self.refused(5, 0, image, check, card.BACK), "refused 5, InvalidCRC32Checksum: the back table's header check sum does not match")

    def test_a_refusal_is_pickled_and_copied(self):
        for refusal in (card.Refused(22, 7), card.Refused(5), card.Refused(6, 0, card.BACK), card.Refused(17, 0, card.SLOT, 5)):
            for again in [pickle.loads(pickle.dumps(refusal, protocol)) for protocol in range(pickle.HIGHEST_PROTOCOL + 1)] + [copy.copy(refusal)]:
                self.assertEqual((type(again), again.number, again.slot, again.name, str(again)), (card.Refused, refusal.number, refusal.slot, refusal.name, str(refusal)))

    def test_what_is_noted_on_a_refusal_is_kept(self):
        refusal = card.Refused(22, 7)
        refusal.at_bench = 3
        self.assertEqual([pickle.loads(pickle.dumps(refusal)).at_bench, copy.copy(refusal).at_bench], [3, 3])

    def test_a_refusal_comes_from_another_process(self):
        with concurrent.futures.ProcessPoolExecutor(1) as pool:
            for call, number, slot in ((refuse_in_a_process, 10, 0), (collide_in_a_process, 22, 3)):
                failure = pool.submit(call).exception(60)
                self.assertIsInstance(failure, card.Refused)
                self.assertEqual((failure.number, failure.slot), (number, slot))

    def test_the_words_are_those_of_the_header(self):
        # The enum behind it has the two numbers of the text calls, which this package does not make.
        header = (ROOT / "include" / "card.h").read_text().split("enum card_text_number")[0]
        stated = re.findall(r"^    CARD_(\w+) = (\d+),? +/\* (.*?)(?:; .*)? \*/$", header, re.M)
        self.assertEqual([int(number) for _, number, _ in stated], [0, *card.NUMBERS])
        for name, number, meaning in stated[1:]:
            self.assertEqual((name.replace("_", ""), meaning), (card.NUMBERS[int(number)][0].upper(), card.NUMBERS[int(number)][1]))


class Library(unittest.TestCase):
    """Each test runs an interpreter of its own, so that the module looks for the library again."""

    def setUp(self):
        self.folder = pathlib.Path(tempfile.mkdtemp())
        self.addCleanup(shutil.rmtree, self.folder)

    def run_python(self, code, *flags, module=MODULE.parent, **more):
        kept = {name: value for name, value in os.environ.items() if name not in ("CARD_LIBRARY", "LD_LIBRARY_PATH", "PYTHONPATH")}
        return subprocess.run([sys.executable, *flags, "-c", code], env={**kept, "PYTHONPATH": str(module), **more}, capture_output=True, text=True, timeout=300)

    def finds(self, module, place, **more):
        """A copy of the package in a folder finds the library at a place where it is called libcard.so.0."""
        shutil.copytree(MODULE, self.folder / module / "card")
        (self.folder / place).mkdir(parents=True, exist_ok=True)
        shutil.copy(library.lib._name, self.folder / place / "libcard.so.0")
        used = "import card; print([line.split()[-1] for line in open('/proc/self/maps') if 'libcard' in line][0])"
        done = self.run_python(used, module=self.folder / module, **more)
        self.assertEqual((done.stdout.strip(), done.stderr), (str((self.folder / place / "libcard.so.0").resolve()), ""))

    def test_it_is_found_beside_the_package_s_files(self):
        self.finds("a", "a/card")

    def test_it_is_found_in_the_repository(self):
        self.finds("hosts/python", "target/lib")

    def test_it_is_found_by_the_loader(self):
        self.finds("a", "b", LD_LIBRARY_PATH=str(self.folder / "b"))

    def test_the_named_one_is_taken(self):
        shutil.copy(library.lib._name, self.folder / "other.so")
        done = self.run_python("import card._library; print(card._library.lib._name)", CARD_LIBRARY=str(self.folder / "other.so"))
        self.assertEqual((done.stdout.strip(), done.stderr), (str(self.folder / "other.so"), ""))

    def test_a_named_one_that_is_missing_is_an_error(self):
        missing = str(self.folder / "libcard.so")
        done = self.run_python("import card", CARD_LIBRARY=missing)
        self.assertEqual(done.returncode, 1)
        self.assertRegex(done.stderr.splitlines()[-1], "^FileNotFoundError: .*CARD_LIBRARY.*" + re.escape(missing))

    def test_a_library_that_is_nowhere_is_an_error_that_says_where_it_was_looked_for(self):
        shutil.copytree(MODULE, self.folder / "a" / "card")
        done = self.run_python("import ctypes\ndef none(name): raise OSError('no ' + name)\nctypes.PyDLL = ctypes.CDLL = none\nimport card", module=self.folder / "a")
        self.assertRegex(done.stderr.splitlines()[-1], "^OSError: .*CARD_LIBRARY can name it: no libcard.so.0; no libcard.so$")

    def test_layouts_are_compared_also_without_assertions(self):
        forged = "import ctypes\nreal = ctypes.sizeof\nctypes.sizeof = lambda t: 137 if getattr(t, '__name__', '') == 'Row' else real(t)\nimport card"
        for flags in ([], ["-O"]):
            done = self.run_python(forged, *flags)
            self.assertEqual(done.returncode, 1, flags)
            self.assertRegex(done.stderr.splitlines()[-1], "^ImportError: Row has 137 bytes here, and not 136")

    def test_the_lock_of_the_interpreter_is_kept(self):
        self.assertIsInstance(library.lib, ctypes.PyDLL)


if __name__ == "__main__":
    done = unittest.main(exit=False, verbosity=0).result
    if not done.wasSuccessful():
        sys.exit(1)
    print(f"python: {done.testsRun} tests ok")
