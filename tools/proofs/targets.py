"""What there is to make. The folders of `tools/ans`, one for each crate, say it.

`CRATE/cycle.txt` says that the crate has a cycle of calls, with a measure for each member; `CRATE/thin.txt` that it has thin
functions; each other file has the answers of the function or member of its name.
"""
from dataclasses import dataclass
from functools import cached_property

from . import answers
from . import thin

CYCLE = "cycle.txt"


@dataclass(frozen=True)
class Target:
    """What one command makes: `cycle`, `function` or `thin`, of a crate; `name` is a function's."""

    kind: str
    crate: str
    name: str = ""

    def __str__(self):
        return " ".join(part for part in (self.kind, self.crate, self.name) if part)

    @property
    def command(self):
        """The command that makes it."""
        return f"tools/remake {self}"


class Folder:
    """The answers of one crate."""

    def __init__(self, path):
        self.path = path
        self.crate = path.name

    def file(self, name):
        """The answer file of a function, by its name in the code."""
        return self.path / f"{name}.txt"

    @cached_property
    def cycle(self):
        """What is said of the cycle as a whole, nothing where there is none."""
        return answers.load(self.path / CYCLE)

    @property
    def members(self):
        """The members of the cycle, by their names in the code."""
        return list(self.cycle.measures)

    def targets(self):
        """All that is made for the crate."""
        found = [Target("cycle", self.crate)] if self.members else []
        for path in sorted(self.path.glob("*.txt")):
            if path.name == thin.ANSWERS:
                found.append(Target("thin", self.crate))
            elif path.name != CYCLE and path.stem not in self.members:
                found.append(Target("function", self.crate, path.stem))
        return found

    def inputs(self, target):
        """The answer files that a target is made from."""
        if target.kind == "cycle":
            return [self.path / CYCLE] + [self.file(name) for name in sorted(self.members)]
        return [self.path / thin.ANSWERS if target.kind == "thin" else self.file(target.name)]


def folders(repository):
    """The folders of answers, by crate."""
    paths = sorted(p for p in (repository.root / "tools" / "ans").iterdir() if p.is_dir())
    return {path.name: Folder(path) for path in paths}


def targets(repository):
    """All that is made, in the order of the crates."""
    found = [t for folder in folders(repository).values() for t in folder.targets()]
    order = list(repository.links)
    return sorted(found, key=lambda t: (order.index(t.crate), t.kind, t.name))


def cycle_folder(repository, crate):
    """The folder of the cycle's proof: its name is made of all members' names."""
    members = set(folders(repository)[crate].members)
    for path in sorted((repository.folder(crate) / "proofs").glob("+*")):
        if set(path.name.split("+")[1:]) == members:
            return path
    return None


def outputs(repository, target):
    """The files of a target, as they stand."""
    proofs = repository.folder(target.crate) / "proofs"
    if target.kind == "cycle":
        folder = cycle_folder(repository, target.crate)
        return sorted(folder.rglob("*.antt")) if folder else []
    if target.kind == "function":
        return [proofs / target.name / "Proof.antt"]
    path = folders(repository)[target.crate].path / thin.ANSWERS
    return [proofs / "Thin.antt"] + [proofs / one.name / "Proof.antt" for one in thin.instances(path)]
