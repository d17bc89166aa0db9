"""What the QEMU runs share: one machine at a time, no KVM, no network, disks behind PCI functions."""
import os
import subprocess
import time

# without cx16: with it kernel 6.12 crashes at its start under TCG in Debian 12's QEMU 7.2
ACCEL = os.environ.get("ACCEL", "tcg")


def place(k):
    """The k-th card's PCI slot and function: slots 4 to 31, eight functions each."""
    return 4 + k // 8, k % 8


def disk_words(k, path, serial, block, read_only):
    slot, function = place(k)
    words = ["-drive", f"file={path},format=raw,if=none,id=d{k},cache=unsafe,file.locking=off,read-only={'on' if read_only else 'off'}"]
    words += ["-device", f"virtio-blk-pci,drive=d{k},serial={serial},logical_block_size={block},physical_block_size={block},"
              f"addr={slot:x}.{function:x},multifunction=on,disable-legacy=on,num-queues=1,vectors=0"]
    return words


def run(words, log, seconds):
    words = ["qemu-system-x86_64", "-machine", "pc", "-cpu", "qemu64,-cx16", "-accel", ACCEL, "-smp", "1", "-nographic", "-monitor", "none", "-nic", "none", "-no-reboot"] + words
    begun = time.time()
    with open(log, "wb") as out:
        done = subprocess.run(["timeout", str(seconds)] + words, stdin=subprocess.DEVNULL, stdout=out, stderr=subprocess.STDOUT)
    took = time.time() - begun
    if done.returncode:
        raise SystemExit(f"QEMU ended with {done.returncode} after {took:.0f} s, see {log}")
    return took
