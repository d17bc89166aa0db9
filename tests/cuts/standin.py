"""The same calls, made of tests/model's functions: a stand-in for the library, with which this test can be tried itself."""

import entries
import model
from staged import ROWS
from units import guid_from


class Standin:
    """The model's calls, with the arguments and the answers that staged.Library has."""

    def call(self, name, image, *args):
        """One call on an image, which it changes where it stands."""
        number, values, (after, *rest), where = model.CALLS[name](image, *args)
        image[:] = after
        return number, values, rest, where

    def update(self, name, image, b, slot, raw):
        """A call of put, or of clear where the bytes are zeros."""
        put = any(raw)
        return self.call(f"card_{name}{'put' if put else 'clear'}", image, b, slot, *([entries.record_from(raw)] if put else []))

    def lay(self, image, b, guid):
        return self.call("card_lay", image, b, guid_from(guid))[0]

    def check(self, image, b):
        number, _, _, where = self.call("card_check", image, b)
        return number, *where

    def plain(self, image, b, slot, raw):
        return self.update("", image, b, slot, raw)[0]

    def start(self, image, b, slot, raw):
        number, (_, state), _, _ = self.update("start_", image, b, slot, raw)
        return number, state

    def next_stage(self, image, b, stage, state):
        number, (_, state), _, _ = self.call("card_next_stage", image, b, stage, state)
        return number, state

    def start_repair(self, image, b):
        number, (_, state), _, _ = self.call("card_start_repair", image, b)
        return number, state

    def next_repair(self, image, b, stage, state):
        number, (_, state), _, _ = self.call("card_next_repair", image, b, stage, state)
        return number, state

    def copy(self, image, b):
        number, (back,), _, _ = self.call("card_reader_copy", image, b)
        return number, back

    def count(self, image, b):
        number, (count,), _, _ = self.call("card_reader_count", image, b)
        return number, count

    def listed(self, image, b):
        number, (count,), (out,), _ = self.call("card_reader_list", image, b, b"\xee" * ROWS)
        return number, count, out
