#!/usr/bin/env python3
"""Measures whole processes that list a card: `card list` beside sgdisk, sfdisk, parted and the Rust original, on files of 1 MiB and 64 GiB, in one run.

The programs run in turn, so that what else the machine does falls on all of them; the figure is the median of the wall time from start to end. A program that is not there is named.
"""
import os
import shutil
import statistics
import subprocess
import sys
import tempfile
import time

ROUNDS = 101
CARD = os.environ.get("CARD", "target/card/card")
ORIGINAL = "target/beside/release/list"


def programs(path):
    """Each program's name and command, if the machine has it."""
    wanted = {"card": [CARD, "list", path], "sgdisk": ["sgdisk", "-p", path], "sfdisk": ["sfdisk", "-l", path],
              "parted": ["parted", "-s", path, "unit", "s", "print"], "the Rust": [ORIGINAL, path]}
    for name, command in wanted.items():
        program = shutil.which(command[0], path=os.environ["PATH"] + ":/usr/sbin:/sbin")
        if program:
            yield name, [program, *command[1:]]
        else:
            print(f"list: {name} is not there, and not measured")


def made(path, size):
    """A card with three used slots."""
    subprocess.run([CARD, "lay", path, "--size", size], check=True, stdout=subprocess.DEVNULL)
    for slot in ("1", "2", "3"):
        subprocess.run([CARD, "put", path, slot, "--size", "64K", "--name", f"map {slot}"], check=True, stdout=subprocess.DEVNULL)


def took(command, null):
    """The wall time of one process."""
    began = time.perf_counter()
    status = os.waitstatus_to_exitcode(os.waitpid(os.posix_spawn(command[0], command, os.environ, file_actions=[(os.POSIX_SPAWN_DUP2, null, 1), (os.POSIX_SPAWN_DUP2, null, 2)]), 0)[1])
    if status:
        sys.exit(f"list: {' '.join(command)} ended with status {status}")
    return time.perf_counter() - began


def main():
    null = os.open(os.devnull, os.O_WRONLY)
    slower = []
    with tempfile.TemporaryDirectory() as folder:
        for size in ("1M", "64G"):
            path = os.path.join(folder, f"card-{size}.img")
            made(path, size)
            times = {name: (command, []) for name, command in programs(path)}
            for _ in range(ROUNDS):
                for command, each in times.values():
                    each.append(took(command, null))
            ours = statistics.median(times["card"][1])
            for name, (_, each) in times.items():
                middle = statistics.median(each)
                print(f"list: {size}: {name}: {middle * 1e3:.2f} ms, {middle / ours:.2f} of card's")
                slower += [f"{name} at {size}"] if middle < ours else []
    print("list: card is the fastest of them" if not slower else f"list: faster than card: {', '.join(slower)}")


main()
