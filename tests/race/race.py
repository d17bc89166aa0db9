"""Threads of Python over one image: one lays two good cards over it in turn, the others make calls. The module keeps the interpreter's lock during a call, so
each call sees one of the two cards whole: it is never refused for a broken table, and a listing is that of one card. Usage: race.py [SECONDS], 10 if not given.
It prints the number of calls of each kind and ends with "race.py: ..", or with exit status 1.
"""
import collections
import pathlib
import random
import sys
import threading
import time
import uuid

sys.path.insert(0, str(pathlib.Path(__file__).resolve().parent.parent.parent / "hosts" / "python"))
sys.dont_write_bytecode = True
import card  # noqa: E402 (the module is found by the lines above)

BLOCKS, FIRST, LAST = 200, 34, 166
OWN = 128  # the slot that the putting thread uses, with block LAST; neither card has it


def record(first, last):
    return card.Record(type=card.BASIC_DATA, guid=uuid.UUID(int=first), first=first, last=last, name=f"blocks {first} to {last}")


def made(records):
    image = bytearray(BLOCKS * 512)
    card.lay(image, 512, uuid.UUID(int=5))
    for slot, (first, last) in records.items():
        card.put(image, 512, slot, record(first, last))
    return bytes(image)


CARDS = [made({1: (FIRST, LAST - 2), 2: (LAST - 1, LAST - 1)}), made({slot: (LAST - slot, LAST - slot) for slot in range(1, OWN)})]
LISTINGS = [card.listing(each, 512) for each in CARDS]
FAR = (LAST - 2 - FIRST) * 512  # a place in slot 1 of the first card alone

image = bytearray(CARDS[0])
stop = threading.Event()
counts = collections.Counter()
wrong = []


def lay_over():
    image[:] = random.choice(CARDS)


def list_it():
    entries = [entry for entry in card.listing(image, 512) if entry.slot != OWN]
    if entries not in LISTINGS:
        raise AssertionError(f"a listing of neither card: {entries[:3]}")


def check_it():
    card.check(image, 512)


def write_it():
    try:
        card.write_payload(image, 512, 1, FAR, b"north ridge")
    except card.Refused as refusal:
        if refusal.number != 24:
            raise


def put_it():
    card.put(image, 512, OWN, record(LAST, LAST))


def clear_it():
    card.clear(image, 512, OWN)


def repeat(call):
    try:
        while not stop.is_set():
            call()
            counts[call.__name__] += 1
    except Exception as failure:
        wrong.append(f"race.py: {call.__name__}: {failure!r}")
        stop.set()


def main():
    seconds = float(sys.argv[1]) if len(sys.argv) > 1 else 10
    sys.setswitchinterval(1e-5)
    threads = [threading.Thread(target=repeat, args=(call,)) for call in (lay_over, list_it, check_it, write_it, put_it, clear_it)]
    for thread in threads:
        thread.start()
    end = time.monotonic() + seconds
    stop.wait(end - time.monotonic())
    stop.set()
    for thread in threads:
        thread.join()
    print("\n".join(f"{name:10} {count:8} calls" for name, count in sorted(counts.items())))
    if wrong or len(counts) < len(threads):
        print("\n".join(wrong) or "race.py: a thread made no call")
        return 1
    print(f"race.py: {sum(counts.values())} calls by {len(threads)} threads in {seconds:g} seconds, and each saw a whole card")
    return 0


if __name__ == "__main__":
    sys.exit(main())
