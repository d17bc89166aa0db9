"""Runs a program of target/bin with input or output that fails, is slow or is interrupted, and gives what it wrote to standard output and standard error, and its status."""
import array
import fcntl
import os
import resource
import signal
import socket
import struct
import subprocess
import tempfile
import termios
import time

BIN = os.path.join(os.path.dirname(os.path.abspath(__file__)), "..", "..", "target", "bin")
SECONDS = 20  # how long a run may take


def run(program, *words, stdin=subprocess.DEVNULL, stdout=subprocess.PIPE, prepare=None, ignoring=False, during=None):
    """`prepare` is run in the new process, before the program; `ignoring` leaves SIGPIPE and SIGXFSZ ignored; `during` is handed the running process."""
    p = subprocess.Popen([os.path.join(BIN, program), *words], stdin=stdin, stdout=stdout, stderr=subprocess.PIPE, preexec_fn=prepare, restore_signals=not ignoring)
    try:
        if during:
            during(p)
        out, err = p.communicate(timeout=SECONDS)
    finally:
        p.kill()
        p.wait()
    return (out or b"").decode("latin-1"), err.decode(), p.returncode


def on_file(path, flags, program):
    fd = os.open(path, flags)
    try:
        return run(program, stdin=fd)
    finally:
        os.close(fd)


# Input that fails.

def closed_input(program):
    return run(program, prepare=lambda: os.close(0))


def directory(program):
    return on_file("/", os.O_RDONLY, program)


def open_for_writing(program):
    return on_file("/dev/null", os.O_WRONLY, program)


def input_error(program):
    """The first address of this process's own memory: EIO."""
    return on_file("/proc/self/mem", os.O_RDONLY, program)


def not_ready(program, first=b""):
    """A pipe that does not block, with these bytes and then nothing in it yet: EAGAIN."""
    reads, writes = os.pipe()
    os.set_blocking(reads, False)
    os.write(writes, first)
    try:
        return run(program, stdin=reads)
    finally:
        os.close(reads)
        os.close(writes)


# Input that comes slowly.

def until(is_so):
    end = time.monotonic() + SECONDS
    while not is_so():
        if time.monotonic() > end:
            raise TimeoutError("the program did not come to the state that was waited for")
        time.sleep(0.001)


def state(p):
    """`S` of a program that waits, `Z` of one that has ended."""
    with open(f"/proc/{p.pid}/stat") as f:
        return f.read().rsplit(")", 1)[1].split()[0]


def unread(fd):
    n = array.array("i", [0])
    fcntl.ioctl(fd, termios.FIONREAD, n)
    return n[0]


def stop_and_go_on(p):
    """Stops the program where it waits, and lets it go on."""
    until(lambda: state(p) in "SZ")
    if state(p) == "Z":
        return
    os.kill(p.pid, signal.SIGSTOP)
    os.waitpid(p.pid, os.WUNTRACED)
    os.kill(p.pid, signal.SIGCONT)
    os.waitpid(p.pid, os.WCONTINUED)
    time.sleep(0.05)


def in_two_parts(program, image, reads, write, close):
    """Half of the input, a stop once it has been read, and the other half."""

    def during(p):
        write(image[:len(image) // 2])
        until(lambda: unread(reads) == 0)
        stop_and_go_on(p)
        try:
            write(image[len(image) // 2:])
        except OSError:
            pass  # the program has ended
        close()

    return run(program, stdin=reads, during=during)


def stopped_on_pipe(program, image):
    """The system goes on with a read of a pipe by itself."""
    reads, writes = os.pipe()
    try:
        return in_two_parts(program, image, reads, lambda s: os.write(writes, s), lambda: os.close(writes))
    finally:
        os.close(reads)


def interrupted_read(program, image):
    """A stop interrupts the read of a socket that has a time limit: EINTR."""
    here, there = socket.socketpair()
    there.setsockopt(socket.SOL_SOCKET, socket.SO_RCVTIMEO, struct.pack("ll", SECONDS, 0))
    with here, there:
        return in_two_parts(program, image, there.fileno(), here.sendall, lambda: here.shutdown(socket.SHUT_WR))


def small_pieces(program, image):
    def during(p):
        for at in range(0, len(image), 512):
            p.stdin.write(image[at:at + 512])
            p.stdin.flush()
            time.sleep(0.001)
        p.stdin.close()
        p.stdin = None

    return run(program, stdin=subprocess.PIPE, during=during)


def uneven_pieces(program, data):
    """Pieces of uneven length, at most as long as a pipe holds. The next one is written once the one before has been read, so that no read gives two."""
    reads, writes = os.pipe()

    def during(p):
        at, length = 0, 1
        while at < len(data):
            os.write(writes, data[at:at + length])
            until(lambda: unread(reads) == 0)
            at, length = at + length, length * 3 % 65521
        os.close(writes)

    try:
        return run(program, stdin=reads, during=during)
    finally:
        os.close(reads)


def given(image):
    f = tempfile.TemporaryFile()
    f.write(image)
    f.seek(0)
    return f


def from_file(program, data):
    with given(data) as f:
        return run(program, stdin=f)


def zeros(program, length):
    """A file of zeros that takes no room on the disk."""
    with tempfile.TemporaryFile() as f:
        f.truncate(length)
        return run(program, stdin=f)


# Output that fails. Each takes the file or the bytes that the program is to read.


def full(program, image):
    with given(image) as f, open("/dev/full", "wb") as out:
        return run(program, stdin=f, stdout=out)


def closed_output(program, image):
    with given(image) as f:
        return run(program, stdin=f, prepare=lambda: os.close(1))


def broken_pipe(program, image, ignoring):
    """A pipe that nobody reads: EPIPE, whether SIGPIPE was ignored when the program began or not, since Rattle's startup code ignores it."""
    reads, writes = os.pipe()
    os.close(reads)
    try:
        with given(image) as f:
            return run(program, stdin=f, stdout=writes, ignoring=ignoring)
    finally:
        os.close(writes)


def full_pipe(program, image):
    """A pipe that does not block and has no room left: EAGAIN."""
    reads, writes = os.pipe()
    os.set_blocking(writes, False)
    try:
        while True:
            os.write(writes, bytes(4096))
    except BlockingIOError:
        pass
    try:
        with given(image) as f:
            return run(program, stdin=f, stdout=writes)
    finally:
        os.close(reads)
        os.close(writes)


def full_after(program, image, most):
    """A file that takes so many bytes and no more. What it took is given as the output."""
    with given(image) as f, tempfile.TemporaryFile() as out:
        _, err, status = run(program, stdin=f, stdout=out, ignoring=True, prepare=lambda: resource.setrlimit(resource.RLIMIT_FSIZE, (most, most)))
        out.seek(0)
        return out.read().decode("latin-1"), err, status


def interrupted_write(program, image):
    """Stops interrupt the writes to a socket that has a time limit and that nobody reads yet: a short count, and then EINTR."""
    here, there = socket.socketpair()
    there.setsockopt(socket.SOL_SOCKET, socket.SO_SNDTIMEO, struct.pack("ll", SECONDS, 0))
    there.setsockopt(socket.SOL_SOCKET, socket.SO_SNDBUF, 4096)
    came = bytearray()

    def during(p):
        for _ in range(3):
            stop_and_go_on(p)
        there.close()
        while part := here.recv(65536):
            came.extend(part)

    with here, there, given(image) as f:
        _, err, status = run(program, stdin=f, stdout=there.fileno(), during=during)
        return came.decode("latin-1"), err, status
