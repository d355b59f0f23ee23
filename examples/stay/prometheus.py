"""A strict reader of counters and gauges in Prometheus' text format, version 0.0.4.

https://prometheus.io/docs/instrumenting/exposition_formats/ has the grammar; that a counter ends with `_total`, and that names are of lower case, are
Prometheus' rules for names."""

import collections
import re

Family = collections.namedtuple("Family", "kind help values")  # values: number by labels, which are sorted pairs

TYPES = ("counter", "gauge", "untyped")
NAME = re.compile(r"[a-zA-Z_:][a-zA-Z0-9_:]*")
LABEL = re.compile(r'([a-zA-Z_][a-zA-Z0-9_]*)="((?:[^"\\\n]|\\["\\n])*)"')
NUMBER = re.compile(r"[+-]?(\d+(\.\d*)?|\.\d+)([eE][+-]?\d+)?|[+-]?Inf|NaN")
ESCAPES = {r"\\": "\\", r"\"": '"', r"\n": "\n"}


class Unreadable(Exception):
    pass


def must(holds, line, text):
    if not holds:
        raise Unreadable(f"{text}: {line!r}")


def labels(line, text):
    """The labels between the braces."""
    found, rest = [], text
    while rest:
        label = LABEL.match(rest)
        must(label, line, "bad label")
        found.append((label[1], re.sub(r"\\.", lambda one: ESCAPES[one[0]], label[2])))
        rest = rest[label.end() :]
        must(not rest or rest[0] == ",", line, "labels are not parted by commas")
        rest = rest[1:]
    must(len(dict(found)) == len(found), line, "a label comes twice")
    return tuple(sorted(found))


def sample(line):
    """A sample's name, labels and number."""
    name = NAME.match(line)
    must(name, line, "bad name")
    rest, braced = line[name.end() :], ()
    if rest.startswith("{"):
        inner = re.match(r'\{((?:[^"}]|"(?:[^"\\]|\\.)*")*)\}', rest)
        must(inner, line, "braces are not closed")
        braced, rest = labels(line, inner[1]), rest[inner.end() :]
    words = rest.split()
    must(rest[:1] in (" ", "\t") and len(words) in (1, 2), line, "no number behind the name")
    must(NUMBER.fullmatch(words[0]), line, "bad number")
    must(len(words) == 1 or re.fullmatch(r"-?\d+", words[1]), line, "bad time")
    return name[0], braced, float(words[0])


def comment(line, families, last):
    """A line `# HELP` or `# TYPE`, of which each family has one at most, before its samples. The family that it is of."""
    words = line.split(" ", 3)
    must(len(words) >= 3 and NAME.fullmatch(words[2]), line, "bad name")
    if words[2] != last:
        must(words[2] not in families, line, "a family is in two places")
        families[words[2]] = Family(None, None, {})
    family = families[words[2]]
    must(not family.values, line, "stands behind the samples")
    if words[1] == "HELP":
        must(family.help is None, line, "comes twice")
        families[words[2]] = family._replace(help=words[3] if len(words) > 3 else "")
    else:
        must(family.kind is None and len(words) == 4 and words[3] in TYPES, line, "bad or second type")
        families[words[2]] = family._replace(kind=words[3])
    return words[2]


def read(text):
    """The families of a page, by name. Each needs a type and a help, and its samples behind them."""
    families, last = {}, None
    must(text.endswith("\n"), text[-40:], "the last line has no end")
    for line in text.split("\n")[:-1]:
        if line.startswith(("# HELP ", "# TYPE ")):
            last = comment(line, families, last)
        elif line and not line.startswith("#"):
            name, braced, number = sample(line)
            must(name == last, line, "a sample without its family's lines before it")
            must(braced not in families[name].values, line, "a sample comes twice")
            families[name].values[braced] = number
    for name, family in families.items():
        must(family.kind and family.help, name, "a family without its type or help")
        must(name == name.lower(), name, "a name not of lower case")
        must((family.kind == "counter") == name.endswith("_total"), name, "a counter ends with _total, and nothing else does")
        must(family.kind != "counter" or all(number >= 0 for number in family.values.values()), name, "a counter below 0")
    return families


def counters(families):
    """The numbers that may never fall, by name and labels."""
    return {(name, braced): number for name, one in families.items() if one.kind == "counter" for braced, number in one.values.items()}
