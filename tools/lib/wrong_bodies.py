"""Reads the wrong bodies of tools/mutants.d, finds what they replace, and chooses some of them.

It is not a program."""
import collections
import hashlib
import re
import tomllib

from lib.command import TOP, Stopped

BODIES = TOP / "tools" / "mutants.d"
KEYS = {"what", "alone", "old", "new", "also", "seen"}


class Failed(Stopped):
    """The message says what could not be built or read."""


class Body:
    """A wrong body, as its table describes it."""

    def __init__(self, place, file, name, table):
        self.place, self.file, self.name = place, file, name
        for key in sorted(set(table) - KEYS):
            raise Failed(f"{place}: {name} has an unknown key {key}")
        for key in ("what", "old", "new", "seen"):
            if not isinstance(table.get(key), str):
                raise Failed(f"{place}: {name} has no text `{key}`")
        self.alone = "alone" in table
        # The crate that sees the body, and which test.
        self.seen = tuple(table["seen"].split(" ", 1))
        self.pairs = [(it["old"], it["new"]) for it in [table, *table.get("also", [])]]
        if len(self.seen) != 2:
            raise Failed(f"{place}: `seen` of {name} is not CRATE and TEST")

    def spans(self, text):
        """For each pair: where the replaced part begins and ends, and what replaces it."""
        for old, new in self.pairs:
            marked = re.fullmatch(r"(.*)⟦(.*)⟧(.*)", old, re.S)
            before, part, after = marked.groups() if marked else ("", old, "")
            pattern = loose(before) + space(before, part) + f"(?P<part>{loose(part)})"
            pattern += space(part, after) + loose(after)
            found = list(re.finditer(pattern, text, re.S))
            if len(found) != 1:
                raise Failed(f"{self.name}: {self.file} has the old text {len(found)} times")
            yield found[0].start("part"), found[0].end("part"), new


def loose(text):
    """A pattern that matches the text with any white space between its words."""
    words = (".*?" if word == "…" else re.escape(word) for word in text.split())
    return r"\s+".join(words)


def space(left, right):
    return r"\s*" if left.strip() and right.strip() else ""


def bodies_of(path):
    """The wrong bodies of a file of tools/mutants.d."""
    crate, *rest = path.relative_to(BODIES).with_suffix(".rt").parts
    place, file = path.relative_to(TOP), "/".join(["crates", crate, "src", *rest])
    try:
        tables = tomllib.loads(path.read_text(encoding="utf-8"))
    except tomllib.TOMLDecodeError as wrong:
        raise Failed(f"{place}: {wrong}") from None
    for name, table in tables.items():
        if not isinstance(table, dict):
            raise Failed(f"{place}: {name} is no table")
        yield Body(place, file, name, table)


def wrong_bodies():
    """The wrong bodies of tools/mutants.d, in the order of their files."""
    found = {}
    for path in sorted(BODIES.rglob("*.toml")):
        for body in bodies_of(path):
            if body.name in found:
                raise Failed(f"{body.place}: {body.name} is also in {found[body.name].place}")
            found[body.name] = body
    return list(found.values())


def digest(*parts):
    """A checksum of some values."""
    return hashlib.sha256(repr(parts).encode()).hexdigest()


def checksum(bodies):
    """A checksum of what the bodies are, and of what sees them, whatever their order."""
    return digest(*sorted((it.name, it.file, it.alone, it.seen, it.pairs) for it in bodies))


def sample(bodies, commit, least, most):
    """From `least` to `most` of the bodies, which the commit chooses, and which one build serves.

    A body comes first for some commits if the same crate sees enough others."""
    order = sorted((it for it in bodies if not it.alone), key=lambda it: digest(commit, it.name))
    count = collections.Counter(it.seen[0] for it in order)
    first = next(it for it in order if count[it.seen[0]] >= least)
    return [it for it in order if it.seen[0] == first.seen[0]][:most]
