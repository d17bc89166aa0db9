"""report: one page in HTML that names every slot, is closed in itself and carries no script, whatever a name holds."""
import html.parser
import os
import subprocess

import gpt
from bench import tool
from check import damaged

VOID = {"meta", "br", "hr", "img", "link", "input", "col", "wbr", "source", "base", "area", "embed", "track", "param"}
ENTRIES = {1: gpt.Entry(34, 37, "north ridge", gpt.guid(1)), 2: gpt.Entry(38, 38, "<script>alert(1)</script>", gpt.guid(2)), 3: gpt.Entry(39, 39, '"&amp; <b>\'', gpt.guid(3)), 128: gpt.Entry(94, 94, "höhen 高程", gpt.guid(128))}


class Page(html.parser.HTMLParser):
    """The texts of a page, its tags, and whether every tag is closed in its turn."""

    def __init__(self, text):
        super().__init__(convert_charrefs=True)
        self.open, self.wrong, self.tags, self.links, self.texts = [], [], [], [], []
        self.feed(text)
        self.close()

    def handle_starttag(self, tag, attrs):
        self.tags.append(tag)
        self.links += [v for k, v in attrs if k in ("href", "src", "action", "data", "xlink:href") and v]
        self.texts += [v for k, v in attrs if v]
        if tag not in VOID:
            self.open.append(tag)

    def handle_startendtag(self, tag, attrs):
        self.handle_starttag(tag, attrs)
        if tag not in VOID:
            self.open.pop()

    def handle_endtag(self, tag):
        if not self.open or self.open.pop() != tag:
            self.wrong.append(tag)

    def handle_data(self, data):
        self.texts.append(data)


def page(b, what, size=512):
    done = b.run("report", "a.img", "-b", size)
    b.equal(f"report of {what}: status", (done.status, done.err), (0, ""))
    found = Page(done.out)
    b.true(f"report of {what}: begins as HTML", done.out.lower().startswith("<!doctype html>"), done.out[:80])
    b.equal(f"report of {what}: every tag is closed in its turn", (found.open, found.wrong), ([], []))
    b.true(f"report of {what}: no script", "script" not in found.tags and "<script" not in done.out.lower())
    b.equal(f"report of {what}: no link that leads outside", [k for k in found.links if not k.startswith("#")], [])
    b.true(f"report of {what}: nothing is fetched by its style", "url(" not in done.out and "@import" not in done.out)
    return found, done


def run(b):
    for size in (512, 4096):
        b.store("a.img", gpt.card(128, size, ENTRIES))
        found, _ = page(b, f"a card at {size}", size)
        text = " ".join(found.texts)
        for slot, e in ENTRIES.items():
            shown = e.name in text or e.name.replace('"', '\\"') in text
            b.true(f"report names slot {slot}", shown and str(e.first) in text and e.guid in text.lower(), e.name)
        b.true("report names the card", "a.img" in text)
    full = {s: gpt.Entry(33 + s, 33 + s, f"map no. {s}.", gpt.guid(s)) for s in range(1, 129)}
    b.store("a.img", gpt.card(195, entries=full))
    text = " ".join(page(b, "a full card")[0].texts)
    b.equal("report names all 128 slots", [s for s, e in full.items() if e.name not in text], [])
    whole = gpt.card(128, entries=ENTRIES)
    for number in (4, 5, 6):
        b.store("a.img", damaged(whole, 512, True, number))
        done = b.run("report", "a.img")
        b.true(f"report of a front that is {number}: a page, or the refusal", done.status == 0 and "north ridge" in done.out or done.status == 1 and done.err.startswith("card: a.img"), done)
    b.store("a.img", gpt.card(128, entries={1: gpt.Entry(34, 37, "\x01\x1b\ud800", gpt.guid(1))}))
    page(b, "a card with odd names")
    screenshot(b)


def screenshot(b):
    found = next((t for t in ("chromium", "chromium-browser", "google-chrome", "firefox") if tool(t)), None)
    if not found:
        return b.not_run("screenshot of the report", "there is no chromium and no firefox")
    b.store("a.img", gpt.card(128, entries=ENTRIES))
    b.store("card.html", b.run("report", "a.img").out.encode())
    shot = b.path("shot.png")
    words = ["--headless", "--screenshot", shot] if found == "firefox" else ["--headless", "--no-sandbox", "--disable-gpu", f"--screenshot={shot}"]
    subprocess.run([found, *words, f"file://{b.path('card.html')}"], capture_output=True, timeout=120, cwd=b.folder)
    b.true("screenshot of the report", os.path.exists(shot) and os.path.getsize(shot) > 2000)
