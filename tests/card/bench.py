"""What every group shares: running the command with a time limit, comparing what it says, and counting."""
import collections
import os
import re
import shlex
import shutil
import subprocess

ROOT = os.path.dirname(os.path.dirname(os.path.dirname(os.path.abspath(__file__))))
CARD = shlex.split(os.environ.get("CARD", "")) or [os.path.join(ROOT, "target", "card", "card")]
if os.sep in CARD[0]:
    CARD[0] = os.path.abspath(CARD[0])
SECONDS = 60  # how long a call may take
GUID = r"[0-9a-f]{8}-[0-9a-f]{4}-[0-9a-f]{4}-[0-9a-f]{4}-[0-9a-f]{12}"
Done = collections.namedtuple("Done", "words status out err")
os.environ["PATH"] += ":/usr/sbin:/sbin"
os.environ["LC_ALL"] = "C.UTF-8"


def like(text):
    """A pattern: the text word for word, but {guid} is any GUID, {n} any number and {..} anything within a line."""
    wild = {"{guid}": GUID, "{n}": r"\d+", "{..}": ".*"}
    return re.compile("".join(wild.get(part) or re.escape(part) for part in re.split(r"(\{guid\}|\{n\}|\{\.\.\})", text)))


def tool(name):
    return shutil.which(name)


def shown(value, other):
    """A value in a line or some; two long texts from a little before the place where they part."""
    text, beside = (v.pattern if isinstance(v, re.Pattern) else v if isinstance(v, str) else repr(v) for v in (value, other))
    begin = max(0, len(os.path.commonprefix([text, beside])) - 80) if len(text) > 400 and not isinstance(other, re.Pattern) else 0
    return (".. " if begin else "") + text[begin:begin + 600] + (f" .. ({len(text)} characters)" if len(text) > begin + 600 else "")


def same(came, want):
    if isinstance(want, re.Pattern):
        return isinstance(came, str) and want.fullmatch(came) is not None
    return want is None or came == want


class Bench:
    """One group: a folder of its own, in which the command is run, and a count of what was compared."""

    def __init__(self, name, folder, rng, kills):
        self.name, self.folder, self.rng, self.kills = name, folder, rng, kills
        self.checks = self.wrong = 0

    def path(self, name):
        return os.path.join(self.folder, name)

    def bytes(self, name):
        with open(self.path(name), "rb") as f:
            return f.read()

    def store(self, name, data):
        with open(self.path(name), "wb") as f:
            f.write(data)
        return name

    def sparse(self, name, length):
        with open(self.path(name), "wb") as f:
            f.truncate(length)
        return name

    def remove(self, *names):
        for name in names:
            if os.path.lexists(self.path(name)):
                os.remove(self.path(name))

    def command(self, *words):
        return [*CARD, *(str(w) for w in words)]

    def environment(self, more=None):
        env = {k: v for k, v in os.environ.items() if k != "COLUMNS"}
        env.update(more or {})
        return env

    def run(self, *words, stdin=None, env=None, before=(), binary=False, **more):
        """Runs the command in the group's folder. `stdin` is bytes, or a file; `before` stands before the command, as strace does."""
        given = {"input": stdin} if isinstance(stdin, bytes) else {"stdin": subprocess.DEVNULL if stdin is None else stdin}
        if "stdout" not in more:
            more["stdout"] = subprocess.PIPE
        words = [str(w) for w in words]
        try:
            p = subprocess.run([*before, *CARD, *words], stderr=subprocess.PIPE, cwd=self.folder, env=self.environment(env), timeout=SECONDS, **given, **more)
        except subprocess.TimeoutExpired:
            return Done(words, "no end", b"" if binary else "", f"no end within {SECONDS} s")
        out = p.stdout or b""
        return Done(words, p.returncode, out if binary else out.decode("utf-8", "backslashreplace"), p.stderr.decode("utf-8", "backslashreplace"))

    def start(self, *words, **more):
        more = {"stdin": subprocess.DEVNULL, "stdout": subprocess.PIPE, "stderr": subprocess.PIPE, **more}
        return subprocess.Popen(self.command(*words), cwd=self.folder, env=self.environment(), **more)

    def ended(self, process):
        """What a started command said, once it has ended."""
        try:
            out, err = process.communicate(timeout=SECONDS)
        except subprocess.TimeoutExpired:
            process.kill()
            process.communicate()
            return Done(process.args, "no end", "", f"no end within {SECONDS} s")
        return Done(process.args, process.returncode, (out or b"").decode("utf-8", "backslashreplace"), (err or b"").decode("utf-8", "backslashreplace"))

    def equal(self, what, came, want):
        """One comparison: `want` is a value, a pattern of `like`, or None for anything."""
        self.checks += 1
        if same(came, want):
            return True
        self.wrong += 1
        print(f"card: {self.name}: wrong: {what}\n    wanted: {shown(want, came)}\n    came:   {shown(came, want)}", flush=True)
        return False

    def true(self, what, fact, came=""):
        return self.equal(what, True if fact else f"no {came}", True)

    def says(self, words, out="", err="", status=0, **how):
        """Runs the command, and compares its status (None: any of the four), its output and its error lines."""
        done = self.run(*words, **how)
        line = "card " + shlex.join(done.words)
        self.equal(f"{line}: status", done.status in (0, 1, 2, 3) if status is None else done.status, True if status is None else status)
        self.equal(f"{line}: standard output", done.out, out)
        self.equal(f"{line}: standard error", done.err, err)
        return done

    def refuses(self, words, err, status=1, files=("a.img",), out="", **how):
        """A refusal: its words, its status, and every byte of the files as it was."""
        old = [self.bytes(f) if os.path.isfile(self.path(f)) else None for f in files]
        done = self.says(words, out, err if isinstance(err, re.Pattern) else err + "\n", status, **how)
        new = [self.bytes(f) if os.path.isfile(self.path(f)) else None for f in files]
        self.true(f"card {shlex.join(done.words)}: no byte of {' '.join(files)} changes", old == new)
        return done

    def not_run(self, what, reason):
        print(f"card: {what}: not run, {reason}", flush=True)
