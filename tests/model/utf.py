"""UTF-8 by RFC 3629 and UTF-16 by RFC 2781, from their tables: no codec of Python is used here."""

TAIL = (0x80, 0xBF)
# RFC 3629, section 4: UTF8-1, UTF8-2, the four rows of UTF8-3 and the three of UTF8-4, each as the first and the last value of every byte.
FORMS = (
    ((0x00, 0x7F),),
    ((0xC2, 0xDF), TAIL),
    ((0xE0, 0xE0), (0xA0, 0xBF), TAIL),
    ((0xE1, 0xEC), TAIL, TAIL),
    ((0xED, 0xED), (0x80, 0x9F), TAIL),
    ((0xEE, 0xEF), TAIL, TAIL),
    ((0xF0, 0xF0), (0x90, 0xBF), TAIL, TAIL),
    ((0xF1, 0xF3), TAIL, TAIL, TAIL),
    ((0xF4, 0xF4), (0x80, 0x8F), TAIL, TAIL),
)
# RFC 3629, section 3: the bits of the first byte that belong to the character's number, by the number of bytes; each later byte has six.
FIRST_BITS = {1: 0x7F, 2: 0x1F, 3: 0x0F, 4: 0x07}
# RFC 3629, section 3: the last character of one, two, three and four bytes, and the mark in the first byte.
RANGES = ((0x7F, 1, 0x00), (0x7FF, 2, 0xC0), (0xFFFF, 3, 0xE0), (0x10FFFF, 4, 0xF0))
# RFC 3629, sections 3 and 10: what a tail byte would make that the table leaves out behind these first bytes.
LEFT_OUT = {0xE0: "overlong of three", 0xED: "surrogate", 0xF0: "overlong of four", 0xF4: "past U+10FFFF"}
# The character that stands for what cannot be told.
REPLACEMENT = 0xFFFD


def form_at(text, at):
    """RFC 3629, section 4: the row of the table whose first byte stands at a place, or None."""
    return next((form for form in FORMS if form[0][0] <= text[at] <= form[0][1]), None)


def fault(text, at):
    """Why no character of UTF-8 begins at a place of a text, or an empty word where one does."""
    form = form_at(text, at)
    if form is None:
        return "first byte"
    for (low, high), byte in zip(form, text[at:]):
        if not low <= byte <= high:
            return LEFT_OUT[text[at]] if TAIL[0] <= byte <= TAIL[1] else "later byte"
    return "cut" if at + len(form) > len(text) else ""


def character(text, at):
    """RFC 3629, section 3: the number of the character that begins at a place, which has no fault, and how many bytes it has."""
    piece = text[at : at + len(form_at(text, at))]
    point = piece[0] & FIRST_BITS[len(piece)]
    for byte in piece[1:]:
        point = point << 6 | byte & 0x3F
    return point, len(piece)


def utf8(point):
    """RFC 3629, section 3: the bytes of a character."""
    size, mark = next((size, mark) for last, size, mark in RANGES if point <= last)
    tail = [0x80 | point >> 6 * i & 0x3F for i in reversed(range(size - 1))]
    return bytes([mark | point >> 6 * (size - 1), *tail])


def utf16(point):
    """RFC 2781, section 2.1: the units of a character, one or two."""
    if point < 0x10000:
        return (point,)
    rest = point - 0x10000
    return 0xD800 | rest >> 10, 0xDC00 | rest & 0x3FF


def characters(units):
    """RFC 2781, section 2.2: the characters of some units; a surrogate without its partner is the replacement character."""
    at = 0
    while at < len(units):
        first, second = units[at], units[at + 1] if at + 1 < len(units) else 0
        if not 0xD800 <= first <= 0xDFFF:
            yield first
        elif first <= 0xDBFF and 0xDC00 <= second <= 0xDFFF:
            yield ((first & 0x3FF) << 10 | second & 0x3FF) + 0x10000
            at += 1
        else:
            yield REPLACEMENT
        at += 1
