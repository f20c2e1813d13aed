"""The commands of `tools/remake`; tools/README.md says when each is used."""
import argparse
import re
import sys
from pathlib import Path

from . import looks, make, record, skeleton, templates
from .cycle import CycleWriter
from .repository import Repository
from .single import FunctionWriter
from .targets import Target, folders, targets


def main(words=None):
    """Runs one command; 0 where all is well."""
    told = arguments().parse_args(words)
    repository = Repository(Path(__file__).resolve().parents[2])
    try:
        problems = told.run(repository, told)
    except (LookupError, looks.NoSkeleton, ValueError) as error:
        problems = [str(error)]
    for problem in problems:
        print(problem, file=sys.stderr)
    return 1 if problems else 0


def arguments():
    """The commands and their words."""
    parser = argparse.ArgumentParser(prog="tools/remake", description="Makes the proof files that follow the code's shape.")
    commands = parser.add_subparsers(required=True, metavar="COMMAND")

    def command(name, run, about, *words):
        """Adds a command that `run` does."""
        added = commands.add_parser(name, help=about, description=about)
        for word, more in words:
            added.add_argument(word, help=more[0], nargs=more[1])
        added.set_defaults(run=run)

    crate = ("crate", ("the crate; all that have such, if none is named", "?"))
    names = ("names", ("functions, by their names in the code, after their crate or without it", "+"))
    name = ("name", ("the function, by its name in the code", None))
    definitions = ("definitions", ("the definitions to unfold", "+"))
    command("all", make_all, "everything")
    command("cycle", make_kind("cycle"), "the proof of a cycle of calls", crate)
    command("thin", make_kind("thin"), "the proofs of thin functions", crate)
    command("function", make_functions, "the proofs of functions outside cycles", names)
    command("check", check, "whether the made files stand as they were made; asks no prover")
    command("member", new_member, "first answers of a member of a cycle that has no loop", name, definitions)
    command("leaf", new_leaf, "first answers of a function outside cycles that has no loop", name, definitions)
    command("places", show_places, "the ways to the needs of a function, newest fact first", name,
            ("pattern", ("only needs that match", "?")))
    return parser


def make_all(repository, _):
    """Makes everything."""
    return make.make(repository, targets(repository))


def make_kind(kind):
    """The command that makes the targets of a kind, of one crate or of all."""

    def run(repository, told):
        """Makes them."""
        wanted = [t for t in targets(repository) if t.kind == kind and told.crate in (None, t.crate)]
        if not wanted:
            raise LookupError(f"tools/ans has no {kind}" + (f" of {told.crate}" if told.crate else ""))
        return make.make(repository, wanted)

    return run


def make_functions(repository, told):
    """Makes functions outside cycles."""
    names = list(told.names)
    crates = [names.pop(0)] if names[0] in folders(repository) and len(names) > 1 else list(folders(repository))
    return make.make(repository, [found(repository, name, crates) for name in names])


def found(repository, name, crates, kind="function"):
    """The target of a function that has answers, in one of some crates."""
    wanted = [t for t in targets(repository) if t.kind == kind and t.name == name and t.crate in crates]
    if len(wanted) != 1:
        raise LookupError(f"{name}: " + ("no answers in tools/ans" if not wanted else "name its crate first"))
    return wanted[0]


def check(repository, _):
    """Holds the made files to the record."""
    problems = record.check(repository)
    if record.note(repository):
        print(record.note(repository))
    if not problems:
        print(f"{len(targets(repository))} targets stand as they were made")
    return problems


def seen(repository, target):
    """A look at a target, taken if there is none."""
    look = looks.Look(repository, target)
    if not look.is_fresh:
        looks.take(repository, [[look]])
    return look


def cycle_of(repository, name):
    """The folder of the cycle that a member is of, or nothing."""
    return next((folder for folder in folders(repository).values() if name in folder.members), None)


def member_setting(repository, folder, name):
    """The places and answers of a member."""
    look = seen(repository, Target("cycle", folder.crate))
    writer = CycleWriter(repository, folder, skeleton.Cycle(look.skeleton), look.places)
    member = next((m for m in writer.skeleton.members if m.name.replace("-", "_") == name), None)
    if member is None:
        raise LookupError(f"{name} is in cycle.txt, but the prover has no such member")
    return writer.setting(member)


def new_member(repository, told):
    """Writes first answers of a member."""
    folder = cycle_of(repository, told.name)
    if folder is None:
        raise LookupError(f"give {told.name} a measure in the cycle's cycle.txt first")
    setting = member_setting(repository, folder, told.name)
    return put(folder.file(told.name), templates.member(repository, folder.crate, setting, told.definitions))


def new_leaf(repository, told):
    """Writes first answers of a function outside cycles."""
    known = [f.crate for f in folders(repository).values() if any(x.name == told.name for x in repository.functions(f.crate))]
    crate = known[0] if len(known) == 1 else repository.crate_of(told.name)
    look = seen(repository, Target("function", crate, told.name))
    needs = re.findall(r"(?m)^(\S+) c(?: κs)? = \?", look.skeleton)
    text = templates.leaf(repository, repository.function(crate, told.name), needs, told.definitions)
    return put(repository.root / "tools" / "ans" / crate / f"{told.name}.txt", text)


def put(path, text):
    """Writes a new answer file; one that is there stays."""
    if path.exists():
        return [f"{path.name} is there already"]
    path.parent.mkdir(parents=True, exist_ok=True)
    path.write_text(text)
    print("wrote", path)
    return []


def show_places(repository, told):
    """Prints the ways to needs."""
    folder = cycle_of(repository, told.name)
    if folder:
        setting = member_setting(repository, folder, told.name)
    else:
        target = found(repository, told.name, list(folders(repository)))
        look = seen(repository, target)
        folder = folders(repository)[target.crate]
        setting = FunctionWriter(repository, folder, told.name, look.skeleton, look.places).setting
    for need, place in setting.places.need.items():
        if re.search(told.pattern or "", need):
            print(need, ":", " < ".join(setting.places.shown(place, setting.function.written)))
    return []


if __name__ == "__main__":
    sys.exit(main())
