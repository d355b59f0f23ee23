"""Tables of what is sent and what must come: a line for each case, and below it, behind two spaces, what is wanted."""

import pathlib
import re

from session import want
from wire import spelled

HERE = pathlib.Path(__file__).resolve().parent


def pairs(name):
    """The cases of a file of this folder: what is given and what is wanted. Lines that begin with `# ` are remarks."""
    lines = [line for line in (HERE / name).read_text().splitlines() if line and not line.startswith("# ")]
    given, wanted = lines[::2], lines[1::2]
    by_twos = len(given) == len(wanted) > 0 and not any(line.startswith("  ") for line in given)
    want(by_twos and all(line.startswith("  ") for line in wanted), f"the lines of {name} do not come by twos")
    return [(one, two[2:]) for one, two in zip(given, wanted)]


def bytes_of(text, words=None):
    """The bytes of a line: parts with `|` between them, spelled as in Python. `N*TEXT` is so many times the text, and
    some words stand for others."""
    return b"".join(part_of(part, words or {}) for part in text.split("|"))


def part_of(part, words):
    many = re.fullmatch(r"(\d+)\*(.*)", part)
    return spelled(many[2]) * int(many[1]) if many else spelled(words.get(part, part))
