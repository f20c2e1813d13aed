"""The facts on the way to a place, and the terms that are made of them.

In the terms of this module `@NAME` stands for the place of that name; `located` writes the places out.
"""
import re
from dataclasses import dataclass, field

from .answers import Answers, numbered
from .places import Places, base
from .signature import Function, closing, parts

PLACE = r"[A-Za-z][A-Za-z0-9-]*"


@dataclass
class Setting:
    """A function's code and what is said about it: places, signatures of it and of what it calls, answers."""

    function: Function
    callees: dict
    places: Places
    answers: Answers
    problems: list = field(default_factory=list)

    def callee(self, fact):
        """The function whose call the fact is of, or nothing."""
        return self.callees.get(base(fact))

    def problem(self, text):
        """Notes what stands in the way of a whole proof."""
        self.problems.append(f"{self.function.crate}::{self.function.name}: {text}")


class Walk:
    """Goes along a way, oldest fact first, and gathers what a rewriting needs."""

    def __init__(self, setting):
        self.setting = setting
        self.tables = {name: f"@args .{name} .now" for name in setting.function.slices}
        self.facts = []
        self.asked = False

    def step(self, fact, place):
        """Takes up one fact of the way."""
        callee = self.setting.callee(fact)
        if base(fact) == "loop":
            self.enter_loop(fact)
        elif fact in self.setting.places.taken_apart or fact.startswith("enum-told"):
            self.facts.append(f"@{fact} .given .1")
        elif base(fact) == "if" and self.asked:
            self.facts.append(f"@{fact} ." + ("taken" if place.startswith("Then") else "left"))
            self.asked = False
        elif callee:
            self.call(fact, callee)

    def enter_loop(self, loop):
        """At a loop's head only its invariant is known, and the tables that it may write are the loop's."""
        self.facts = []
        for name in self.setting.function.written:
            if name in self.setting.places.loops[loop]:
                self.tables[name] = f"@{loop} .{name}"

    def call(self, fact, callee):
        """Takes up what a call ensures, and the tables that it leaves."""
        if not self.setting.answers.dropped(fact):
            self.facts.append(self.promise(fact, callee))
            self.asked = self.asked or callee.result == "bool"
        for name in callee.written:
            self.tables[name] = f"@{fact} .last {callee.position(name)}"

    def promise(self, fact, callee):
        """What a call ensures, right to left; a record that is written out is put in for the result instead."""
        promise = f"@{fact} .ensures" + "".join(f" ({self.instance(v)})" for v in callee.quantified)
        for other in self.setting.answers.via.get(fact, "").split():
            promise = f"(rw (@{other} .ensures) at ({promise}))"
        return promise if callee.gives_record else "← " + promise

    def instance(self, variable):
        """What a callee's contract is taken at: the answers' word, the table of that initial, or the caller's own variable."""
        if variable in self.setting.answers.instances:
            return self.setting.answers.instances[variable]
        if variable.isupper():
            for name, value in self.tables.items():
                if name.startswith(variable.lower()):
                    return value
        return variable


def facts(setting, place, before_loop=False):
    """The facts of the way to a place, oldest first; with `before_loop` only those before the loop."""
    walk = Walk(setting)
    for fact, at in reversed(setting.places.way(place)):
        if base(fact) == "loop" and before_loop:
            break
        walk.step(fact, at)
    return walk.facts


def kept(setting, place, table):
    """That a table keeps its length: over each call on the way that may write it, back to the loop's head; or nothing."""
    found = []
    for fact, _ in setting.places.way(place):
        callee = setting.callee(fact)
        if base(fact) == "loop" and table in setting.places.loops[fact]:
            found.append(f"@{fact} .inv .{table}")
        elif callee and table in callee.written:
            found.append(f"@{fact} .kept {callee.position(table)}")
    return " ∙ ".join(found)


def same_length(setting, need, order):
    """The answer of a need `same-length`, or nothing. Those of one place are the written tables', in their order."""
    place = setting.places.need.get(need, "")
    alike = [n for n in order if n.startswith("same-length") and setting.places.need.get(n) == place]
    tables = setting.function.written
    if len(alike) == len(tables):
        return kept(setting, place, tables[alike.index(need)])
    chains = [chain for chain in (kept(setting, place, table) for table in tables) if chain]
    return chains[0] if len(chains) == 1 else ""


def nested(chain, tail=False, size=3):
    """A rewriting with a chain of facts, three at a time; with `tail` the last fact is rewritten by the one before, not the goal."""
    term = ""
    if tail:
        term = f"rw ({chain[-2][2:]}) at ({chain[-1][2:]})"
        chain = chain[:-2]
    for start in reversed(range(0, len(chain), size)):
        group = ", ".join(chain[start:start + size])
        term = f"rw ({group})" + (f" ({term})" if term else "")
    return term or "refl"


def with_lemmas(chain, text):
    """The chain with the lemmas of `FIRST; CALL: LEMMA; $: LEMMA` put in their places."""
    first, *others = [part.strip() for part in text.split(";")]
    for other in others:
        call, lemma = [part.strip() for part in other.split(":")]
        if call == "$":
            chain = chain + [lemma]
        else:
            chain = [x for one in chain for x in ([lemma, one] if is_fact_of(call, one) else [one])]
    return parts(first) + [x for one in chain for x in parts(one)]


def is_fact_of(call, fact):
    """Whether a fact of a chain is what a call ensures; `call*` is any of the calls of that name."""
    found = re.match(rf"← @({PLACE}) ", fact)
    return found is not None and numbered(call).fullmatch(found.group(1)) is not None


def rewritten(term, chain):
    """The term with each `%rw(..)` and `%tail(..)` written out over the chain."""
    while found := re.search(r"%(rw|tail)\(", term):
        end = closing(term, found.end() - 1)
        inner = with_lemmas(chain, term[found.end():end])
        term = term[:found.start()] + nested(inner, tail=found.group(1) == "tail") + term[end + 1:]
    return term


def located(setting, term, place, who):
    """The term with its places written out: `@name`, the state `@^name`, and `.last[table]`, `.kept[table]` of a call."""
    paths = setting.places.paths(place)

    def path(name):
        """The path of a place."""
        if name not in paths:
            setting.problem(f"{who} names the place {name}; there are: {' '.join(paths)}")
        return paths.get(name, "?")

    def table(found):
        """A table by its name, as a part of what the call left."""
        callee = setting.callee(found.group(1))
        if not callee or found.group(3) not in callee.written:
            setting.problem(f"{who} names a table that the call does not write: {found.group(0)}")
            return "?"
        return f"@{found.group(1)} .{found.group(2)} {callee.position(found.group(3))}"

    term = re.sub(rf"@({PLACE}) \.(last|kept)\[(\w+)\]", table, term)
    term = re.sub(rf"@\^({PLACE})", lambda found: path(found.group(1)).rsplit(" .", 1)[0], term)
    return re.sub(rf"@({PLACE})", lambda found: path(found.group(1)), term)


def written_out(setting, text, need, place_type):
    """An answer or a lemma as it stands in a proof: instances, rewritings, `%before`, `%place` and the places written out."""
    place = setting.places.need.get(need, "")
    for variable, term in setting.answers.instances.items():
        text = re.sub(rf"%{variable}\b", lambda _: term, text)
    text = rewritten(text, facts(setting, place))
    text = text.replace("%before", ", ".join(facts(setting, place, before_loop=True)))
    text = text.replace("%place", place_type(place))
    return located(setting, text.strip("\n"), place, need)


def equation(left, term):
    """A line `left = term`; a term of several lines stands below, indented."""
    term = re.sub(r"\n(?! )", "\n    ", term)
    return f"{left} =" + ("\n    " if "\n" in term else " ") + term
