"""Reads an answer file: what is said by hand about a function's needs.

A file is a row of sections, each begun by a line `== KIND ..`; lines before the first are remarks.
"""
import re
from dataclasses import dataclass, field

SEARCHED = "search needs"


@dataclass
class Answer:
    """The answer of a need: the names to unfold for it, and the term."""

    unfolding: str
    term: str


@dataclass
class Answers:
    """The sections of a file; README.md says what each is for."""

    use: str = ""
    pre: str = ""
    needs: dict = field(default_factory=dict)
    lemmas: list = field(default_factory=list)
    via: dict = field(default_factory=dict)
    drop: list = field(default_factory=list)
    instances: dict = field(default_factory=dict)
    measures: dict = field(default_factory=dict)

    def dropped(self, fact):
        """Whether the fact of this name is not used in rewritings."""
        return any(numbered(name).fullmatch(fact) for name in self.drop)


def numbered(name):
    """The pattern of a fact's name; `name*` is that name with any number behind it."""
    return re.compile(re.escape(name).replace(r"\*", r"\d*"))


def sections(text):
    """The sections of a text: kind, the rest of its line, the lines below."""
    found = []
    for line in text.split("\n"):
        head = re.match(r"== (\S+) ?(.*)", line)
        if head:
            found.append((head.group(1), head.group(2).strip(), []))
        elif found:
            found[-1][2].append(line)
    return [(kind, about, "\n".join(lines).strip("\n")) for kind, about, lines in found]


def entries(text):
    """The lines `NAME: VALUE` of a section."""
    pairs = (line.partition(":") for line in text.split("\n") if line.strip())
    return {name.strip(): value.strip() for name, _, value in pairs}


def parse(text):
    """The answers of a file's text."""
    found = Answers()
    for kind, about, body in sections(text):
        if kind == "need":
            need, *unfolding = about.split()
            found.needs[need] = Answer(" ".join(unfolding[1:]), body)
        elif kind == "lemma":
            found.lemmas.append((about, body))
        elif kind in ("use", "pre"):
            setattr(found, kind, body)
        elif kind == "via":
            found.via = entries(body)
        elif kind == "drop":
            found.drop = body.split()
        elif kind == "for":
            found.instances = entries(body)
        elif kind == "measures":
            found.measures = entries(body)
        else:
            raise ValueError(f"no kind of section: == {kind}")
    return found


def load(path):
    """The answers of a file, none where there is no file."""
    return parse(path.read_text()) if path.exists() else Answers()
