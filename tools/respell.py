#!/usr/bin/env python3
"""Brings the repository's own definitions and lemmas to the spelling of today's Rattle, after port.py: tools/respell.py FOLDER [--check].

Words are in snake case: `lexedOf` becomes `lexed_of`, `found-past` becomes `found_past`. A kind of a token or a node is a number and no type, so it has a
word's spelling too, with `_kind` after it: `kinds.And` becomes `kinds.and_kind`. Without that `True`, `Let` and `In` would fall together with words of the
language. Types, modules, constructors, fields that come from src/, strings and the code in src/ keep their names.

It stops, and writes nothing, where two names would become one, or a new name is one that is used already. It is for the text that port.py left, with no
folder `proofs/F/` in it: there a second run changes nothing. Names of goals, which proof files have since, are not for it.
"""

import collections
import os
import re
import sys

# What ends a name in antt.
NAME = re.compile(r"[^\s(){}\[\],;.:=λ→×⊎⌜⌝\"«»|⊢@←/`]+")
CAMEL = re.compile(r"^[a-z][a-z0-9]*(?:[A-Z][A-Za-z0-9]*)+")
DECLARED = re.compile(r"^\s*(?:pub |abbrev |unfoldable )*([^\s:(){};,.=λ]+)(?: \{[^}]*\})* :(?: |$)")
NUMBER = re.compile(r"^abbrev pub ([A-Z]\w*) : ℕ$")
# Where a name in snake case is a definition's too: the definition has it, and the lemma, the constructor or the field has another. The last ones are names
# that port.py had respelled already.
LEMMAS = "at-end begun-by call-end check-at error-made error-table errors-of form-through item-as matches-at nodes-of on-way push-error push-node same-name"
LEMMAS += " stands-as token-count goes_on line_word no_row node_made of_row room_of"
BY_HAND = {name: name.replace("-", "_") + "_lem" for name in LEMMAS.split()}
BY_HAND |= {name: name.replace("-", "_") + "_case" for name in "not-text wrong-rule too_long".split()}
BY_HAND |= {"token-room": "token_room_held", "error-room": "error_room_held"}
# Names of src/ and of the library that only look like words of ours.
KEPT = set()


def snake(name):
    name = name.replace("-", "_")
    return re.sub(r"(?<=[A-Za-z0-9])([A-Z])", lambda m: "_" + m[1].lower(), name)


def kind(name):
    return name.lower() if name.isupper() else re.sub(r"(?<=[a-z])([A-Z])", r"_\1", name).lower()


def files(root, *endings):
    for folder, inner, names in os.walk(os.path.join(root, "crates")):
        inner[:] = sorted(d for d in inner if d != "out")
        for name in sorted(names):
            if name.endswith(endings):
                yield os.path.join(folder, name)


def read(path):
    with open(path, encoding="utf-8") as f:
        return f.read()


def code(line):
    """An antt line without its comment and its strings."""
    return re.sub(r'"(?:\\.|[^"\\])*"', '""', line.split("--")[0] if re.search(r"(^|\s)--(\s|$)", line) else line)


def declared(root):
    """The names of the repository's own that get another spelling, each with the new one."""
    every = "\n".join(read(path) for path in files(root, ".antt"))
    new = {name: to for name, to in BY_HAND.items() if "_" in name and not re.search(rf"(?<![\w-]){to}(?![\w-])", every)}
    for path in files(root, ".antt"):
        kinds = os.path.basename(path) in ("Kind.antt", "Kinds.antt")
        for line in read(path).splitlines():
            if line.startswith(("use ", "pub use ", "--")):
                continue
            text = code(line)
            if kinds and (m := NUMBER.match(text)):
                new[m[1]] = kind(m[1]) + "_kind"
                continue
            if (m := DECLARED.match(text)) and m[1][0].islower() and m[1] not in KEPT:
                if snake(m[1]) != m[1] and not re.search(r"[+*^%]", m[1]):
                    new[m[1]] = BY_HAND.get(m[1], snake(m[1]))
            # Bound names and constructors in camel case.
            for name in NAME.findall(text):
                if CAMEL.fullmatch(name) and name not in KEPT:
                    new[name] = BY_HAND.get(name, snake(name))
    return new


def clashes(root, new):
    used = collections.defaultdict(set)
    for path in files(root, ".antt"):
        for line in read(path).splitlines():
            for name in NAME.findall(code(line)):
                used[name].add(os.path.relpath(path, root))
    back = collections.defaultdict(list)
    for old, to in new.items():
        back[to].append(old)
    for to, olds in sorted(back.items()):
        if len(olds) > 1:
            yield f"{to}: {', '.join(olds)}"
        elif to in used and to not in new:
            yield f"{to}: {olds[0]}, and {to} itself in {', '.join(sorted(used[to])[:3])}"


def replaced(text, new):
    return NAME.sub(lambda m: new.get(m[0], m[0]), text)


IMPORT = re.compile(r"(?m)^(?:ghost |pub )*use ([^\s{};]+?)(?:\.\{([^}]*)\})?(?: as \S+?)?;?$")


def own(path, crates):
    parts = path.split(".")
    return parts[0] == "Rattle" and len(parts) > 1 and parts[1] in crates


def foreign(text, crates):
    """The names that a file takes from a library."""
    found = set()
    for path, names in IMPORT.findall(text):
        if not own(path, crates):
            found |= {name.split(" as ")[0].strip() for name in names.split(",")} | set(path.split("."))
    return found


def imported(line, new, crates):
    """An import: the names in it, not its path."""
    m = IMPORT.match(line)
    if not m or m[2] is None or not own(m[1], crates):
        return line
    return line[: m.start(2)] + replaced(m[2], new) + line[m.end(2) :]


def antt(line, new, crates):
    """A line of antt: code by name; in a comment only what no English text has, a name in camel case or between backquotes."""
    if line.startswith(("use ", "pub use ")):
        return imported(line, new, crates)
    at = re.search(r"(?:^|(?<=\s))--(?=\s|$)", line)
    head, tail = (line[: at.start()], line[at.start() :]) if at else (line, "")
    parts = re.split(r'("(?:\\.|[^"\\])*")', head)
    head = "".join(p if p.startswith('"') else replaced(p, new) for p in parts)
    return head + comment(tail, new)


def comment(text, new):
    text = re.sub(r"`([^`]*)`", lambda m: "`" + (new.get(m[1], m[1])) + "`", text)
    return NAME.sub(lambda m: new[m[0]] if m[0] in new and CAMEL.match(m[0]) else m[0], text)


def rattle(text, new, crates):
    """A file of src/: imports of clauses, and clauses."""
    lines, deep, out = text.split("\n"), 0, []
    for line in lines:
        if line.lstrip().startswith("//"):
            out.append(comment(line, new))
        elif line.lstrip().startswith("ghost use "):
            out.append(imported(line, new, crates))
        elif deep or re.match(r"\s*(requires|ensures|ghost)\b", line):
            deep += line.count("{") - line.count("}")
            out.append(replaced(line, new))
        else:
            out.append(line)
    return "\n".join(out)


def is_kind(name, to):
    return name[0].isupper() and to.endswith("_kind")


def kinds_of(path, text):
    """The kinds that a file names by themselves, and its words for the module that it has them from."""
    names, aliases = set(), set()
    if os.path.basename(path) in ("Kind.antt", "Kinds.antt"):
        names |= {m[1] for line in text.splitlines() if (m := NUMBER.match(line))}
    for module, listed, alias in re.findall(r"(?m)^(?:ghost |pub )*use Rattle\.\w+\.specs\.(Kinds?)(?:\.\{([^}]*)\})?(?: as (\w+))?;?$", text):
        names |= {name.split(" as ")[0].strip() for name in listed.split(",")} - {""}
        if not listed:
            aliases.add(alias or module)
    return names, aliases


def main(arguments):
    root = arguments[0] if arguments else "."
    new = declared(root)
    found = list(clashes(root, new))
    for line in found:
        print("falls together: " + line)
    if found or "--check" in arguments:
        return 1 if found else 0
    crates = set(os.listdir(os.path.join(root, "crates")))
    for path in files(root, ".antt", ".rt"):
        text = read(path)
        others = foreign(text, crates)
        mine, aliases = kinds_of(path, text)
        here = {name: to for name, to in new.items() if name not in others and (name in mine or not is_kind(name, to))}
        for alias in aliases:
            text = re.sub(rf"(?<![\w.]){alias}\.([A-Z]\w*)", lambda m: f"{alias}.{new.get(m[1], m[1])}", text)
        to = rattle(text, here, crates) if path.endswith(".rt") else "\n".join(antt(l, here, crates) for l in text.split("\n"))
        if to != read(path):
            with open(path, "w", encoding="utf-8") as f:
                f.write(to)
    print(f"{len(new)} names")
    return 0


if __name__ == "__main__":
    sys.exit(main(sys.argv[1:]))
