"""The words of the command line: help, version, options anywhere, usage errors, sizes and types, and files that are not there."""
import json
import os
import socket

import gpt
from bench import like

COMMANDS = "lay check list free put clear write read show repair label screen uefi report grow apply".split()


def help_texts(b):
    none = b.run()
    b.equal("card: status", none.status, 2)
    b.equal("card: standard output", none.out, "")
    whole = b.run("help")
    b.equal("card help: status", whole.status, 0)
    b.equal("card help: standard error", whole.err, "")
    b.true("card: the help on standard error", whole.out and none.err.startswith(whole.out), none.err)
    b.says(("--help",), whole.out)
    for command in COMMANDS:
        b.true(f"card help names {command}", command in whole.out.replace(",", " ").split(), whole.out)
        own = b.run("help", command)
        b.equal(f"card help {command}: status", own.status, 0)
        b.true(f"card help {command} names the command", f"card {command}" in own.out, own.out)
        for word in ("-h", "--help"):
            b.says((command, word), own.out)
    b.says(("--version",), "card 0.1.0\n")


def wrong_words(b):
    """Every usage error is one line that ends by where to look, and status 2; nothing is printed, and no byte changes."""
    for words in (("nosuch",), ("help", "nosuch"), ("",), ("--nosuch",)):
        b.refuses(words, like("card: {..}\n"), 2, ())
    b.store("a.img", gpt.card(128))
    b.store("plan", b"label: gpt\n")
    wrong = {
        "list": [(), ("a.img", "b.img"), ("a.img", "--nosuch"), ("a.img", "-b"), ("a.img", "-b", "1000"), ("a.img", "-b", "x"), ("a.img", "--block-size=0")],
        "put": [("a.img",), ("a.img", "1"), ("a.img", "1", "--first", "40"), ("a.img", "1", "--last", "40"), ("a.img", "1", "--first", "40", "--last", "41", "--size", "1K"),
                ("a.img", "x", "--size", "1K"), ("a.img", "-1", "--size", "1K"), ("a.img", "1", "--first", "x", "--last", "41"), ("a.img", "1", "--size", "1K", "--type", "nosuch"),
                ("a.img", "1", "--size", "1K", "--guid", "5a3f"), ("a.img", "1", "--size", "1K", "--attrs", "Nosuch"), ("a.img", "1", "--size", "1K", "--attrs", "GUID:47"),
                ("a.img", "1", "--size", "1K", "--attrs", "64"), ("a.img", "1", "--size", "1K", "--stop-after", "x"), ("a.img", "1", "2", "--size", "1K")],
        "clear": [("a.img",), ("a.img", "next"), ("a.img", "x"), ("a.img", "1", "2")],
        "write": [("a.img", "1"), ("a.img",), ("a.img", "x", "src"), ("a.img", "1", "src", "--at", "x")],
        "read": [("a.img",), ("a.img", "x"), ("a.img", "1", "--length", "x"), ("a.img", "1", "--at")],
        "lay": [(), ("a.img", "--guid", "x"), ("a.img", "--size", "x")],
        "label": [("a.img",), ("a.img", "1", "--date", "yesterday"), ("a.img", "1", "--style", "x")],
        "screen": [(), ("a.img", "x")],
        "apply": [(), ("plan",)],
        "check": [(), ("a.img", "x")], "free": [()], "show": [()], "repair": [()], "uefi": [()], "report": [()], "grow": [()],
    }
    for command, lists in wrong.items():
        for words in lists:
            b.refuses((command, *words), like(f"card: {{..}}; see: card help {command}\n"), 2)
    for command, *words in (("list", "--dry-run"), ("list", "--json=1"), ("check", "--mounted"), ("put", "1", "--size", "0"), ("put", "1", "--size", "1K", "--stop-after", "0"),
                            ("put", "1", "--size", "1K", "--stop-after", "5"), ("write", "1", "src", "--stop-after", "1"), ("put", "1", "--size", "1K", "--name", "\udcff")):
        b.refuses((command, "a.img", *words), like(f"card: {{..}}; see: card help {command}\n"), 2)
    b.equal("put --mounted of a file", b.run("put", "a.img", "1", "--size", "1K", "--mounted").status, 0)


def places(b):
    """Options anywhere after the command, both forms of a value, and `--`."""
    entries = {1: gpt.Entry(40, 49, "map", gpt.guid(1))}
    done = 'slot 1 put: blocks 40 to 49 (5 KiB), type data, GUID ' + gpt.guid(1) + ', "map"\n'
    guid = gpt.guid(1)
    for words in (("a.img", "1", "--first", "40", "--last", "49", "--name", "map", "--guid", guid),
                  ("--first=40", "a.img", "--last=49", "1", "--name=map", f"--guid={guid.upper()}"),
                  ("--name", "map", "--guid", guid, "-b", "512", "--first", "40", "--last", "49", "--", "a.img", "1"),
                  ("a.img", "1", "--first", "40", "--last", "49", "--name", "map", "--guid", guid, "--block-size=512")):
        b.store("a.img", gpt.card(128))
        b.says(("put", *words), done)
        b.true(f"card put {words}: the bytes", b.bytes("a.img") == gpt.card(128, entries=entries))
    b.store("--json", gpt.card(128))
    b.says(("check", "--", "--json"), f"--json: whole: 128 blocks of 512 bytes (64 KiB), 0 of 128 slots used, GUID {gpt.DISK}\n")
    b.store("b.img", gpt.card(128, 4096))
    for words in (("-b", "4096", "b.img"), ("b.img", "-b", "4096"), ("--block-size", "4096", "b.img"), ("b.img", "--block-size=4096")):
        b.says(("check", *words), f"b.img: whole: 128 blocks of 4096 bytes (512 KiB), 0 of 128 slots used, GUID {gpt.DISK}\n")


def odd_files(b):
    """Names and kinds of files that a shell can hand over."""
    image = gpt.card(128, entries={1: gpt.Entry(40, 49, "map", gpt.guid(1))})
    for name in ('q"u\\o\tt.img', "höhe 高.img", "a b", "%s%n"):
        b.store(name, image)
        b.says(("check", name), f"{name}: whole: 128 blocks of 512 bytes (64 KiB), 1 of 128 slots used, GUID {gpt.DISK}\nwarning: slot 1 begins at block 40, which is no multiple of 1 MiB\n")
        found = json.loads(b.run("list", name, "--json").out or "{}")
        b.equal(f"list {name!r} --json: the device", found.get("partitiontable", {}).get("device"), name)
    b.store(b"b\xffd.img".decode("utf-8", "surrogateescape"), image)
    for words in (("check",), ("list", "--json"), ("report",), ("show",)):
        b.equal(f"{words[0]} of a file whose name is no UTF-8", b.run(words[0], b"b\xffd.img".decode("utf-8", "surrogateescape"), *words[1:]).status, 0)
    os.symlink("a b", b.path("link.img"))
    b.equal("clear by a symbolic link", b.run("clear", "link.img", "1").status, 0)
    b.true("clear by a symbolic link: the bytes, and the link stays", b.bytes("a b") == gpt.card(128) and os.path.islink(b.path("link.img")))
    os.symlink("loop.img", b.path("loop.img"))
    b.refuses(("list", "loop.img"), "card: loop.img: Too many levels of symbolic links", 3, ())
    with socket.socket(socket.AF_UNIX) as s:
        s.bind(b.path("sock"))
        b.refuses(("list", "sock"), like("card: sock is a socket, not a card\n"), 3, ())
    master, slave = os.openpty()
    for command in (("list",), ("clear", "1")):
        b.refuses((command[0], os.ttyname(slave), *command[1:]), like(f"card: {os.ttyname(slave)} is a terminal{{..}}, not a card\n"), 3, ())
    os.close(master)
    os.close(slave)


def not_there(b):
    """A file that is not there, or is no card file at all."""
    os.mkdir(b.path("folder"))
    os.mkfifo(b.path("pipe"))
    b.store("src", b"map")
    b.store("plan", b"label: gpt\n")
    for command, more in (("check", ()), ("list", ()), ("free", ()), ("put", ("1", "--size", "1K")), ("clear", ("1",)), ("write", ("1", "src")), ("read", ("1",)), ("show", ()),
                          ("repair", ()), ("label", ("1",)), ("screen", ("1",)), ("uefi", ()), ("report", ()), ("grow", ())):
        b.refuses((command, "none.img", *more), "card: none.img: No such file or directory", 3, ())
        b.true(f"card {command} none.img makes no file", not os.path.exists(b.path("none.img")))
        b.refuses((command, "folder", *more), "card: folder is a directory, not a card", 3, ())
        b.refuses((command, "pipe", *more), like("card: pipe is a {..}, not a card\n"), 3, ())
    b.refuses(("lay", "folder"), "card: folder is a directory, not a card", 3, ())
    b.refuses(("lay", "pipe", "--size", "64K"), like("card: pipe is a {..}, not a card\n"), 3, ())
    b.refuses(("list", "/dev/null"), like("card: /dev/null{..}\n"), 3, ())
    b.refuses(("check", "none/none.img"), "card: none/none.img: No such file or directory", 3, ())
    b.refuses(("check", "src/none.img"), "card: src/none.img: Not a directory", 3, ())


def sizes(b):
    """SIZE on the command line, and lengths in words."""
    for text, blocks in (("1", 1), ("511", 1), ("512", 1), ("513", 2), ("512B", 1), ("1K", 2), ("1KiB", 2), ("3K", 6), ("1025B", 3), ("1M", 2048), ("1MiB", 2048), ("1048576", 2048), ("1024K", 2048)):
        b.store("a.img", gpt.card(8192))
        b.says(("put", "a.img", "next", "--size", text, "--guid", gpt.guid(1), "--name", "x"),
               f'slot 1 put: blocks 2048 to {2047 + blocks} ({gpt.words(blocks * 512)}), type data, GUID {gpt.guid(1)}, "x"\n')
    for text in ("1X", "1.5M", "-1", "", "M", "1KB", "K1", "1 1", "0x10", "99999999999999999999", "99999999T", "1MM"):
        b.refuses(("put", "a.img", "next", f"--size={text}"), like("card: {..}; see: card help put\n"), 2)
    for text, count in (("34816", 34816), ("34K", 34816), ("35KiB", 35840), ("1M", 1 << 20), ("1535K", 1535 << 10), ("1537K", 1537 << 10), ("1100K", 1100 << 10), ("1G", 1 << 30),
                        ("1536M", 1536 << 20), ("2047M", 2047 << 20), ("1025M", 1025 << 20), ("1T", 1 << 40), ("34817", 34817), ("1234567B", 1234567)):
        b.remove("s.img")
        first, last = gpt.usable(count // 512, 512)
        b.says(("lay", "s.img", "--size", text, "--guid", gpt.DISK),
               f"card laid: s.img: {count // 512} blocks of 512 bytes ({gpt.words(count // 512 * 512)}), GUID {gpt.DISK}, usable blocks {first} to {last}\n")
        b.equal(f"lay --size {text}: the file's length", os.path.getsize(b.path("s.img")), count)


def types(b):
    """TYPE and ATTRS, as words and as numbers, and what the list makes of them."""
    other = "21686148-6449-6e6f-744e-656564454649"
    for word, text in (*gpt.TYPES.items(), *((v.upper(), v) for v in gpt.TYPES.values()), (other, other), (other.upper(), other)):
        b.store("a.img", gpt.card(128))
        b.says(("put", "a.img", "1", "--first", "40", "--last", "40", "--guid", gpt.guid(1), "--name", "x", "--type", word),
               f'slot 1 put: blocks 40 to 40 (512 B), type {gpt.type_word(text)}, GUID {gpt.guid(1)}, "x"\n')
        entry = gpt.Entry(40, 40, "x", gpt.guid(1), text)
        b.true(f"--type {word}: the bytes", b.bytes("a.img") == gpt.card(128, entries={1: entry}))
        b.equal(f"--type {word}: the list", gpt.listed(b.run("list", "a.img").out.splitlines()), [gpt.row(1, entry, 512)])
    for word, bits, flags in (("RequiredPartition", 1, "RequiredPartition"), ("NoBlockIOProtocol", 2, "NoBlockIOProtocol"), ("LegacyBIOSBootable", 4, "LegacyBIOSBootable"),
                              ("GUID:48", 1 << 48, "GUID:48"), ("63", 1 << 63, "GUID:63"), ("GUID:48,52", 1 << 48 | 1 << 52, "GUID:48,52"), ("52 48", 1 << 48 | 1 << 52, "GUID:48,52"),
                              ("GUID:63,GUID:60", 1 << 63 | 1 << 60, "GUID:60,63")):
        b.store("a.img", gpt.card(128))
        b.run("put", "a.img", "1", "--first", "40", "--last", "40", "--guid", gpt.guid(1), "--name", "x", "--attrs", word)
        entry = gpt.Entry(40, 40, "x", gpt.guid(1), flags=bits)
        b.true(f"--attrs {word}: the bytes", b.bytes("a.img") == gpt.card(128, entries={1: entry}))
        b.equal(f"--attrs {word}: the list", gpt.listed(b.run("list", "a.img").out.splitlines()), [gpt.row(1, entry, 512, flags)])


def run(b):
    help_texts(b)
    wrong_words(b)
    places(b)
    odd_files(b)
    not_there(b)


def run_sizes(b):
    sizes(b)
    types(b)
