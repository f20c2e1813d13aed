"""Runs the prover for what it prints and writes out; its verdict is not asked here."""
import os
import shutil
import subprocess
from contextlib import contextmanager


def skeletons(root, crate):
    """Checks a crate as it stands: what the prover prints, with a skeleton of each function that has no proof and may have one now."""
    printed = asked(root, crate)
    (root / "target" / "remake.log").write_text(printed)
    return printed


def write_places(root, crate):
    """Has the prover write its modules out, under `generated`; it prints no skeletons then."""
    shutil.rmtree(generated(root), ignore_errors=True)
    asked(root, crate, "--generated", str(generated(root).resolve()))


def asked(root, crate, *words):
    """What the prover prints of a crate, uncut."""
    ran = subprocess.run(["rt", "dev", crate, *words], cwd=root, env=os.environ | {"RT_CUT": "0"},
                         stdout=subprocess.PIPE, stderr=subprocess.STDOUT, text=True, check=False)
    return ran.stdout


def generated(root):
    """Where the prover writes its modules out."""
    return root / "target" / "gen"


def tidy(root):
    """Lays all files out as the toolchain does."""
    subprocess.run(["rt", "fmt"], cwd=root, check=True)


@contextmanager
def aside(root, paths):
    """Sets files or folders aside, for the prover prints a skeleton only of what has no proof; what is not made anew is put back."""
    store = root / "target" / "aside"
    shutil.rmtree(store, ignore_errors=True)
    store.mkdir(parents=True)
    moved = [(path, store / str(index)) for index, path in enumerate(paths) if path.exists()]
    for path, kept in moved:
        shutil.move(path, kept)
    try:
        yield
    finally:
        for path, kept in moved:
            if not path.exists():
                shutil.move(kept, path)
