"""Reads the skeletons that the prover prints for functions without a proof."""
import re
from dataclasses import dataclass, field

USE = re.compile(r"(?m)^use [^{\n]*(?:\{[^}]*\})?[^\n]*$")
READS = re.compile(r"^use Rattle·([^.·]+)(?:·proofs\.proofs|\.proofs)\.(\S+)\.Reads as (\S+)$")


def printed(log, proof):
    """The skeleton in what the prover printed for the proof at a path below `proofs/`, or nothing."""
    place = re.escape(proof) if not proof.startswith("+") else r"\+[^\n]*"
    found = re.search(rf"(?m)^help: write \S+/proofs/{place}/Proof\.antt [^\n]*\n((?:    .*\n|\n)*)", log)
    return "\n".join(line[4:] for line in found.group(1).split("\n")) if found else None


def uses(text):
    """The imports of a skeleton, each on one line."""
    return [re.sub(r"\s+", " ", line) for line in USE.findall(text)]


def readings(lines):
    """The functions whose promises are imported: alias, crate and path of each."""
    found = (READS.match(line) for line in lines)
    return [(one.group(3), one.group(1), one.group(2)) for one in found if one]


@dataclass
class Member:
    """A member of a cycle: what it may claim of its callees, its invariants, and its needs, in the order of `spec`."""

    name: str
    count: str
    claims: str
    invariants: list = field(default_factory=list)
    needs: list = field(default_factory=list)

    @property
    def callees(self):
        """The names of the functions that it calls, as places have them."""
        words = (re.split(r"[. ]", claim)[0] for claim in self.claims.split(", "))
        return sorted({re.sub(r"-(reads|below)$", "", word) for word in words})

    @property
    def module(self):
        """The module of its proof: `ForIn` of `for-in`."""
        return "".join(part.capitalize() for part in self.name.split("-"))

    def own(self, need):
        """The need of a name in the skeleton, without the member's."""
        return need[len(self.name) + 1:]


class Cycle:
    """The skeleton of a cycle's proof."""

    def __init__(self, text):
        self.text = text
        self.uses = uses(text)
        self.sharing = set(re.findall(r"(?m)^(\S+) t c κs = \?", text))
        named = re.search(r"(?m)^use (Rattle·([^.·]+)·proofs\.proofs)\.(\+[^.\s]*)\.", text)
        self.library, self.crate, self.folder = named.groups()
        self.name = self.folder.replace("_", "-")
        counts = re.findall(r"(?m)^abbrev μ-(\S+) : Measures (\d+)", text)
        self.members = [self.member(name, count) for name, count in counts]

    def member(self, name, count):
        """A member, from its part of the theorem at the end."""
        theorem = self.text[self.text.index(f"\npub {self.name}-spec"):]
        start = re.search(r"(?<![\w-])" + re.escape(f"{name}-lts.spec"), theorem)
        rest = theorem[start.end():]
        claimed = re.match(rf"\s*\((.*?)\)\s*\({re.escape(name)}-at t\)\s*{re.escape(name)}\.Post", rest, re.S)
        member = Member(name, count, re.sub(r"\s+", " ", claimed.group(1)).strip().rstrip(","))
        given = re.compile(rf"\s*(?:\((\S+) t\)(\))?|({re.escape(name)}-\S+?)(?=[\s)])|(.))")
        for word in given.finditer(rest[claimed.end():]):
            if word.group(1):
                member.needs.append(word.group(1))
            elif word.group(3):
                member.invariants.append(word.group(3))
            if word.group(2) or word.group(4):
                break
        return member

    def import_of(self, alias):
        """The import under an alias."""
        return next(line for line in self.uses if line.endswith(f" as {alias}"))

    def takes_shares(self, need):
        """Whether the answer of a need takes the lifetimes too."""
        return need in self.sharing

    def signature(self, invariant):
        """The type of an invariant or a measure of a loop, and the names of what it is about."""
        found = re.search(rf"(?m)^abbrev {re.escape(invariant)} : (\S+)\n{re.escape(invariant)} (.*) =\s+\?", self.text)
        return found.groups()
