"""The record of what was made, and the check that it still stands.

`made.txt` has a line for each target: a hash of the code that it was made from, of its answers, of the generator, and of the
files. The check works these out again. It shows that no input changed since the files were made, and that the files are as
they were made; it needs no prover and does not make them again. Whoever changes a file and the record with it is found only
by making all anew; only the prover shows that the files prove what they should.
"""
import ast
import hashlib
import re
import shutil
import subprocess
from functools import lru_cache
from pathlib import Path

from . import targets as made
from . import thin
from .header import MARK
from .signature import QUOTED

PARTS = ("code", "answers", "tools", "files")
REASON = {"code": "the code changed since it was made", "answers": "its answers changed since it was made",
          "tools": "the generator changed since it was made", "files": "its files are not as they were made"}
GENERATOR = {"cycle": "cycle", "function": "single", "thin": "thin"}
TITLE = "# What the made proof files were made from, and what was made. Written by tools/remake; see tools/README.md, \"The check\".\n"


def digest(texts):
    """A short hash of texts, in order."""
    return hashlib.sha256("\0".join(texts).encode()).hexdigest()[:16]


def plain(code):
    """Code without comments, and with one blank for any."""
    return re.sub(r"\s+", " ", QUOTED.sub(lambda m: "" if m.group(0).startswith("//") else m.group(0), code)).strip()


def own_functions(repository, target):
    """The functions whose proofs a target has."""
    folder = made.folders(repository)[target.crate]
    names = {"cycle": folder.members, "function": [target.name]}.get(target.kind)
    if names is None:
        names = [one.name for one in thin.instances(folder.path / thin.ANSWERS)]
    return [repository.function(target.crate, name) for name in sorted(names)]


def code(repository, target):
    """The code that matters: the functions themselves, the heads of what they call, and the types that are named there."""
    own = own_functions(repository, target)
    texts = [plain(f.head + f.body) for f in own]
    called = set(re.findall(r"\b(\w+)\(", " ".join(texts)))
    crates = [c for c in [target.crate, *repository.links[target.crate]] if repository.folder(c).is_dir()]
    texts += [plain(f.head) for c in crates for f in repository.functions(c) if f.name in called and f not in own]
    named = set(re.findall(r"\w+", " ".join(texts)))
    for path in (path for c in crates for path in repository.sources(c)):
        types = re.findall(r"(?:struct|enum) (\w+)[^{;]*\{(.*?)\n\}", path.read_text(), re.S)
        texts += [f"{name} {plain(body)}" for name, body in types if name in named]
    return texts


@lru_cache(maxsize=None)
def imported(module):
    """A module of this package and those that it imports, by name."""
    found, waiting = set(), [module]
    while waiting:
        name = waiting.pop()
        path = Path(__file__).with_name(f"{name}.py")
        if name in found or not path.exists():
            continue
        found.add(name)
        for node in ast.walk(ast.parse(path.read_text())):
            if isinstance(node, ast.ImportFrom) and node.level:
                waiting += [node.module] if node.module else [alias.name for alias in node.names]
    return sorted(found)


def state(repository, target):
    """The four hashes of a target as things stand."""
    folder = made.folders(repository)[target.crate]
    files = made.outputs(repository, target)
    sources = [Path(__file__).with_name(f"{name}.py") for name in imported(GENERATOR[target.kind])]
    texts = {"code": code(repository, target), "answers": [p.read_text() for p in folder.inputs(target)],
             "tools": [p.read_text() for p in sources],
             "files": [f"{p.name} {p.read_text() if p.exists() else 'missing'}" for p in files]}
    return {part: digest(texts[part]) for part in PARTS}


def path_of(repository):
    """Where the record stands."""
    return repository.root / "tools" / "made.txt"


def read(repository):
    """The record: the toolchain's name, and the hashes of each target."""
    path = path_of(repository)
    lines = path.read_text().splitlines() if path.exists() else []
    pairs = [line.partition(": ") for line in lines if not line.startswith("#")]
    told = {name: value for name, _, value in pairs}
    toolchain = told.pop("toolchain", "")
    return toolchain, {name: dict(zip(*[iter(value.split())] * 2)) for name, value in told.items()}


def write(repository, remade):
    """Renews the record for the targets that were made, and drops what is made no more."""
    _, old = read(repository)
    lines = [TITLE + f"toolchain: {toolchain()}"]
    for target in made.targets(repository):
        hashes = state(repository, target) if target in remade else old.get(str(target))
        if hashes:
            lines.append(f"{target}: " + " ".join(f"{part} {hashes[part]}" for part in PARTS))
    path_of(repository).write_text("\n".join(lines) + "\n")


@lru_cache(maxsize=None)
def toolchain():
    """The name of the toolchain at hand, nothing where there is none."""
    if not shutil.which("rt"):
        return ""
    return subprocess.run(["rt", "version"], capture_output=True, text=True, check=False).stdout.strip()


def note(repository):
    """Whether another toolchain is at hand than the one that the files were made with: they may come out otherwise, and still be right."""
    written_by, _ = read(repository)
    here = toolchain()
    return f"made with {written_by}; here is {here}" if here and here != written_by else ""


def check(repository):
    """What does not stand as the record has it, a line for each."""
    _, recorded = read(repository)
    found = []
    known = made.targets(repository)
    for target in known:
        if str(target) not in recorded:
            found.append(f"{target}: not in the record: {target.command}")
            continue
        now = state(repository, target)
        changed = [REASON[part] for part in PARTS if now[part] != recorded[str(target)].get(part)]
        found += [f"{target}: {reason}: {target.command}" for reason in changed]
    names = {str(target) for target in known}
    found += [f"{name}: in the record, but nothing is made by that name" for name in recorded if name not in names]
    return found + strays(repository, known)


def strays(repository, known):
    """Files that say that they are made, and are no target's."""
    expected = {path for target in known for path in made.outputs(repository, target)}
    files = sorted((repository.root / "crates").rglob("*.antt"))
    marked = [path for path in files if path.read_text().startswith(MARK)]
    found = [path.relative_to(repository.root) for path in marked if path not in expected]
    return [f"{path}: says that it is made, but nothing makes it" for path in found]
