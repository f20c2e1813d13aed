"""What the prover says of functions without a proof: the skeleton, and the places of the code. Kept in `target/looks`.

A look takes minutes, so it is kept and taken again only where the code or the toolchain changed.
"""
import re
import shutil

from . import prover, record, skeleton, targets


class NoSkeleton(Exception):
    """The prover printed no skeleton where one is wanted."""


class Look:
    """The kept look at one target."""

    def __init__(self, repository, target):
        self.repository = repository
        self.target = target
        self.folder = repository.root / "target" / "looks" / str(target).replace(" ", "-")
        self.key = record.digest([record.toolchain(), *record.code(repository, target)])

    @property
    def is_fresh(self):
        """Whether the code is as it was looked at."""
        kept = self.folder / "key"
        return kept.exists() and kept.read_text() == self.key

    @property
    def skeleton(self):
        """The skeleton."""
        return (self.folder / "skeleton").read_text()

    @property
    def places(self):
        """The folder with the places of the code, laid out as the prover does."""
        return self.folder / "gen"

    @property
    def proof(self):
        """The folder of the target's proof, below `proofs/`."""
        if self.target.kind == "function":
            return self.target.name
        found = targets.cycle_folder(self.repository, self.target.crate)
        return found.name if found else "+"

    @property
    def has_proof(self):
        """Whether there is a proof, be it of the code as it was."""
        return self.target.kind == "cycle" or any(path.exists() for path in self.proofs)

    @property
    def proofs(self):
        """The folders that have to be away for the prover to print the skeleton."""
        if self.target.kind == "cycle":
            return cycles(self.repository, self.target.crate)
        return [self.repository.folder(self.target.crate) / "proofs" / self.target.name]

    def printed(self, log):
        """The skeleton in what the prover printed."""
        text = skeleton.printed(log, self.proof)
        if text is None:
            raise NoSkeleton(f"{self.target}: the prover printed no skeleton; see target/remake.log")
        return text

    def keep(self, text):
        """Keeps a skeleton, and the places that the prover wrote out."""
        shutil.rmtree(self.folder, ignore_errors=True)
        self.folder.mkdir(parents=True)
        generated = prover.generated(self.repository.root)
        library = self.repository.module(self.target.crate, "proofs", self.target.crate).replace(".", "/")
        name = skeleton.Cycle(text).folder if self.target.kind == "cycle" else self.target.name
        for path in sorted((generated / library / name).glob("Lts*.antt")):
            kept = self.places / path.relative_to(generated)
            kept.parent.mkdir(parents=True, exist_ok=True)
            shutil.copy(path, kept)
        (self.folder / "skeleton").write_text(text)
        (self.folder / "key").write_text(self.key)


def cycles(repository, crate):
    """The folders of a crate's cycles of calls."""
    return sorted((repository.folder(crate) / "proofs").glob("+*"))


def layers(repository, crate, names):
    """Functions in rows, each calling only those of rows before: the prover prints a skeleton where the callees have proofs."""
    calls = {name: set(re.findall(r"\b(\w+)\(", repository.function(crate, name).body)) & set(names) for name in names}
    rows, done = [], set()
    while len(done) < len(calls):
        row = [name for name in names if name not in done and calls[name] <= done]
        if not row:
            raise ValueError("functions that call each other are a cycle: " + " ".join(set(names) - done))
        rows.append(row)
        done |= set(row)
    return rows


def take(repository, rows):
    """Looks at rows of targets of one crate. All else that they call has a proof; the cycle's is not checked meanwhile."""
    root, crate = repository.root, rows[0][0].target.crate
    printed = []
    for row in rows:
        away = [path for look in row if look.target.kind == "function" for path in look.proofs]
        with prover.aside(root, cycles(repository, crate) + away):
            log = prover.skeletons(root, crate)
            printed += [(look, look.printed(log)) for look in row]
    with prover.aside(root, cycles(repository, crate)):
        prover.write_places(root, crate)
    for look, text in printed:
        look.keep(text)
