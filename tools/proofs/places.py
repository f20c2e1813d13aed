"""Reads the places of a function's code, from the `Lts` file that the prover writes.

A place is a record that says what is known there: its own fact, as a field named after the call or the variable, and
`before`, the place before it. A need names the place at which it has to be shown. The way to a need is the chain of its
places back to the function's start.
"""
import re
from dataclasses import dataclass, field

RECORD = re.compile(r"\s+pub record (\S+) : Type 0 where")
FIELD = re.compile(r"\s+pub (\S+) : ?(.*)")
NEED = re.compile(r"\s+(?:abbrev pub )?Need-(\S+) =(.*)$")
AT = re.compile(r"\s+\(c : (\S+?)\)")
NOISE = re.compile(r"slice-known|shared|known-told|match\d*$|args|pre|good|fits|.*-arg\d*$")


@dataclass
class Places:
    """`before` and `fact` of each place, the place of each need, the parts of each loop's fact, and which facts take an enum apart."""

    before: dict = field(default_factory=dict)
    fact: dict = field(default_factory=dict)
    need: dict = field(default_factory=dict)
    loops: dict = field(default_factory=dict)
    taken_apart: set = field(default_factory=set)

    def way(self, place):
        """The places of the way, newest first, each with the name of its fact."""
        found = []
        while place in self.before:
            found.append((self.fact.get(place, "?"), place))
            place = self.before[place]
        return found

    def paths(self, place):
        """How the facts of the way are written from its end; of those with one name, the newest."""
        found, path = {}, "c"
        for name, _ in self.way(place):
            found.setdefault(name, f"{path} .{name}")
            path += " .before"
        for name in ("args", "pre", "good", "fits"):
            found[name] = f"{path} .{name}"
        return found

    def shown(self, place, hidden=()):
        """The names on the way that say something, newest first."""
        paths = self.paths(place)
        return [n for n in paths if not NOISE.match(n) and re.sub(r"\d+$", "", n) not in hidden]


def base(name):
    """The name of a fact without the number that tells it from others of its name."""
    return re.sub(r"\d+$", "", name)


def parse(text):
    """The places of an `Lts` file."""
    places = Places()
    lines = text.split("\n")
    for index, line in enumerate(lines):
        record = RECORD.match(line) if "record" in line else None
        if record and not record.group(1).endswith("·own"):
            read_record(places, record.group(1), lines[index + 1:])
        need = NEED.match(line) if "Need-" in line else None
        if need and index + 1 < len(lines):
            at = AT.match(need.group(2) or lines[index + 1])
            if at:
                places.need[need.group(1)] = at.group(1)
    for place, fact in places.fact.items():
        if base(fact) == "loop":
            places.need[f"{fact}-head"] = place
            places.loops[fact] = own_parts(text, place)
    places.taken_apart = taken_apart(places.need)
    return places


def read_record(places, place, lines):
    """Takes up the fields of a place's record: `before`, and the first that follows it."""
    for line in lines:
        if not re.match(r"\s+pub (\S+) :", line):
            return
        name, kind = FIELD.match(line).groups()
        if name == "before":
            places.before[place] = kind.strip()
        elif place in places.before and place not in places.fact:
            places.fact[place] = name


def own_parts(text, place):
    """The names of the parts of a place's own fact: of a loop's, what the loop may change, and its invariant."""
    own = re.search(rf"pub record {re.escape(place)}·own : Type 0 where\n((?: +\S.*\n)*)", text)
    return re.findall(r"(?m)^\s+pub (\S+) :", own.group(1)) if own else []


def taken_apart(needs):
    """The facts that are a constructor's, as needs name them: `k2` of `enum-known-k-2`."""
    asked = (re.match(r"enum-known-(.*?)(?:-(\d+))?$", need) for need in needs)
    return {found.group(1) + (found.group(2) or "") for found in asked if found}
