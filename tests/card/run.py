#!/usr/bin/env python3
"""The command `card` from outside: what it prints, how it ends and which bytes it leaves, on cards that the tests make by themselves.

run.py [--seed N] [--kills N] [GROUP..]     the program is the environment variable CARD, else target/card/card
"""
import argparse
import os
import random
import sys
import tempfile
import time
import traceback

sys.dont_write_bytecode = True
sys.path.insert(0, os.path.dirname(os.path.abspath(__file__)))
import bench  # noqa: E402
import groups  # noqa: E402


def folder():
    """A folder in memory where the machine has one, since a disk takes milliseconds for each stored block."""
    return "/dev/shm" if os.access("/dev/shm", os.W_OK) and not os.environ.get("TMPDIR") else None


def run(name, test, seed, kills):
    """Runs one group in a folder of its own. A group that ends by an error is wrong."""
    with tempfile.TemporaryDirectory(prefix="card-", dir=folder()) as place:
        group = bench.Bench(name, place, random.Random(f"{seed} {name}"), kills)
        began = time.monotonic()
        try:
            test(group)
        except Exception:
            group.checks, group.wrong = group.checks + 1, group.wrong + 1
            print(f"card: {name}: wrong: the group ended early\n{traceback.format_exc()}")
    took = f", {time.monotonic() - began:.0f} s" if time.monotonic() - began >= 10 else ""
    if group.checks:
        print(f"card: {name}: {group.checks} checks" + (f", {group.wrong} wrong" if group.wrong else " ok") + took, flush=True)
    return group.checks, group.wrong


def main():
    words = argparse.ArgumentParser(description="tests of the command card; groups: " + " ".join(groups.ALL))
    words.add_argument("--seed", type=int, default=random.SystemRandom().randrange(1 << 32))
    words.add_argument("--kills", type=int, default=200, help="updates that are killed")
    words.add_argument("groups", nargs="*", metavar="GROUP")
    said = words.parse_args()
    unknown = [g for g in said.groups if g not in groups.ALL]
    if unknown:
        words.error(f"no group {unknown[0]}; there are {' '.join(groups.ALL)}")
    print(f"card: the program is {' '.join(bench.CARD)}, seed {said.seed}", flush=True)
    if not os.access(bench.CARD[0], os.X_OK) and os.sep in bench.CARD[0]:
        sys.exit(f"card: {bench.CARD[0]} is not there: name the program in CARD")
    counts = [run(name, groups.ALL[name], said.seed, said.kills) for name in said.groups or groups.ALL]
    checks, wrong = (sum(c[i] for c in counts) for i in (0, 1))
    print(f"card: {checks} checks, {wrong} wrong (seed {said.seed})")
    return 1 if wrong else 0


if __name__ == "__main__":
    sys.exit(main())
