"""Writes first answers for a new member of a cycle or a new leaf: every return is a rewriting.

A call at the end after a found token rewrites its own promise instead of the goal, for there the goal speaks of the state
before the token was passed.
"""
import re

from .facts import facts


def imports(repository, crate, definitions):
    """The section `use` for definitions, found by their names."""
    homes = {}
    for name in definitions:
        homes.setdefault(repository.home(name, crate), []).append(name)
    return "== use\n" + "".join(f"use {home}.{{{', '.join(names)}}}\n" for home, names in homes.items())


def ends_in_reader(setting, chain):
    """Whether a chain ends with a reader's promise after that of a method that moves the state."""
    called = [re.match(r"← @([\w-]+) ", fact) for fact in chain[-2:]]
    if len(called) < 2 or not all(called):
        return False
    mover, reader = [setting.callee(found.group(1)) for found in called]
    return reader.written == setting.function.written and mover.result == "Self"


def instance_names(repository, crate, instances):
    """The definitions that the instances of a cycle name."""
    words = re.findall(r"(?<![@.\w-])[A-Za-z][\w-]*", " ".join(instances.values()))
    found = []
    for word in dict.fromkeys(words):
        try:
            repository.home(word, crate)
            found.append(word)
        except LookupError:
            pass
    return found


def member(repository, crate, setting, definitions):
    """The answers of a member without a loop."""
    names = definitions + [n for n in instance_names(repository, crate, setting.answers.instances) if n not in definitions]
    text = imports(repository, crate, names)
    for need, place in setting.places.need.items():
        if need.startswith("returns"):
            kind = "tail" if ends_in_reader(setting, facts(setting, place)) else "rw"
            text += f"== need {need} unfolding {' '.join(definitions)}\n%{kind}()\n"
    return text


def leaf(repository, function, needs, definitions):
    """The answers of a function outside a cycle without a loop; what its contract holds for every value of is bound first."""
    text = imports(repository, function.crate, definitions)
    bound = f"λ {' '.join(function.quantified)}. " if function.quantified else ""
    for need in needs:
        if need.startswith("returns"):
            text += f"== need {need} unfolding {' '.join(definitions)}\n{bound}%rw()\n"
    return text
