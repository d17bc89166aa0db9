"""python3 -m card runs the examples in the texts of the package and of its public names, and says how many there are. The exit status is 1 if one fails."""
from __future__ import annotations

import doctest
import sys
from collections.abc import Iterator

import card


def examples() -> Iterator[doctest.DocTest]:
    """The package's own text, and the texts of the functions and classes, and of their methods, that it gives."""
    yield from doctest.DocTestFinder(recurse=False).find(card, "card")
    for name in card.__all__:
        value = getattr(card, name)
        if getattr(value, "__module__", None) == "card":
            # The module is given as False since the finder would pass over what stands in a file of another name.
            yield from doctest.DocTestFinder().find(value, f"card.{name}", module=False, globs=dict(vars(card)))


def main() -> int:
    runner = doctest.DocTestRunner()
    for example in examples():
        runner.run(example)
    done = runner.summarize()
    print(f"card: {done.attempted} examples, {done.failed} failed")
    return 1 if done.failed or not done.attempted else 0


if __name__ == "__main__":
    sys.exit(main())
