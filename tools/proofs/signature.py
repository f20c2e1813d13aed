"""Reads the functions of a Rattle source: parameters, result, contract and body."""
import re
from dataclasses import dataclass

QUOTED = re.compile(r"""//[^\n]*|b?"(?:\\.|[^"\\])*"|b?'(?:\\.|[^'\\\n])'""")
CLOSING = {"(": ")", "{": "}", "[": "]", "<": ">"}


@dataclass(frozen=True)
class Parameter:
    """A parameter with its type as it is written; `self` has the type `Self`."""

    name: str
    type: str

    @property
    def is_slice(self):
        """Whether it is lent a table, to read or to write."""
        return re.match(r"&('\w+ )?(mut )?\[", self.type) is not None

    @property
    def is_written(self):
        """Whether it is a table that the function may write."""
        return self.is_slice and "mut [" in self.type


@dataclass(frozen=True)
class Function:
    """A function of a crate; `owner` is the type whose method it is, or nothing."""

    crate: str
    owner: str
    name: str
    parameters: tuple
    result: str
    ensures: str
    head: str
    body: str

    def position(self, name):
        """The projection of a parameter among all of them: `.1 .0` is the second."""
        for index, parameter in enumerate(self.parameters):
            if parameter.name == name:
                return ".1 " * index + ".0"
        raise KeyError(f"{self.crate}::{self.name} has no parameter {name}")

    @property
    def slices(self):
        """The names of the tables that it is lent, in order."""
        return [p.name for p in self.parameters if p.is_slice]

    @property
    def written(self):
        """The names of the tables that it may write, in order."""
        return [p.name for p in self.parameters if p.is_written]

    @property
    def quantified(self):
        """The variables for every value of which its contract holds: `E` of `((E : List ℕ) → ..)`."""
        claim = re.match(r"\s*λ \S+\s*⌜\s*\(?\s*((?:\([^():]+ : [^()]*\)\s*)+)→", self.ensures)
        if not claim:
            return []
        return [name for names in re.findall(r"\(([^():]+) :", claim.group(1)) for name in names.split()]

    @property
    def gives_record(self):
        """Whether its contract writes the result out as a record."""
        return re.match(r"\s*λ (\S+)\.\s*⌜\s*\1 ≡ record \{", self.ensures) is not None


def blank(text):
    """The text with comments, strings and characters as blanks of the same length, so that brackets can be counted."""
    return QUOTED.sub(lambda found: " " * len(found.group(0)), text)


def closing(code, start):
    """The index of the bracket that closes the one at `start`."""
    stack = []
    for index in range(start, len(code)):
        sign = code[index]
        if sign in "({[":
            stack.append(CLOSING[sign])
        elif stack and sign == stack[-1]:
            stack.pop()
            if not stack:
                return index
    raise ValueError("a bracket is not closed: " + code[start:start + 40])


def parts(text, sign=",", opening="([{"):
    """The parts of a text between signs that stand in no bracket."""
    found, depth, last = [], 0, 0
    ending = "".join(CLOSING[bracket] for bracket in opening)
    for index, letter in enumerate(text):
        if letter in opening:
            depth += 1
        elif letter in ending:
            depth -= 1
        elif letter == sign and depth == 0:
            found.append(text[last:index])
            last = index + 1
    return [part.strip() for part in found + [text[last:]] if part.strip()]


def parameter(text):
    """A parameter from its text."""
    name, colon, kind = text.partition(":")
    name = re.sub(r"^mut ", "", name.strip())
    if not colon:
        return Parameter("self", "Self")
    return Parameter(name, kind.strip())


def owners(code):
    """The extents of the `impl` blocks: start, end, type."""
    found = []
    for block in re.finditer(r"\bimpl\s+(?:\S+\s+for\s+)?(\w+)[^{;]*\{", code):
        found.append((block.start(), closing(code, block.end() - 1), block.group(1)))
    return found


def functions(text, crate):
    """All functions of a source text, in its order."""
    code = blank(text)
    impls = owners(code)
    found = []
    for start in re.finditer(r"\bfn\s+(\w+)\s*(?:<[^>]*>)?\(", code):
        owner = next((name for low, high, name in impls if low < start.start() < high), "")
        found.append(function_at(text, code, start, crate, owner))
    return found


def function_at(text, code, start, crate, owner):
    """The function whose head begins at a match of `fn NAME(`."""
    shut = closing(code, start.end() - 1)
    given = tuple(parameter(part) for part in parts(text[start.end():shut], opening="([<"))
    result = re.compile(r"\s*(?:->\s*(.*?)\s*)?(?=\b(?:requires|ensures|where)\b|\{)", re.S).match(code, shut + 1)
    ensures, end = "", result.end()
    clause = re.compile(r"\s*(requires|ensures)\s*\{")
    while met := clause.match(code, end):
        end = closing(code, met.end() - 1) + 1
        if met.group(1) == "ensures":
            ensures = text[met.end():end - 1].strip()
    opened = code.find("{", end)
    body = text[opened:closing(code, opened) + 1] if opened >= 0 else ""
    return Function(crate, owner, start.group(1), given, result.group(1) or "()", ensures, text[start.start():end], body)
