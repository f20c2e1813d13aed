"""Writes the proof of a cycle of calls: its measures, a module for each member, and the file that ties them."""
import re

from . import answers, places
from .facts import Setting, equation, same_length, written_out
from .header import header
from .skeleton import readings

NOT_FOR_MEMBERS = re.compile(r"\.\{ ?statement,? ?\}$|\.Tie\.|borrow\.Fn|-kinds|Prim\.Native")


class CycleWriter:
    """Writes the files of a cycle, from its skeleton, the places of its members and the answers."""

    def __init__(self, repository, folder, skeleton, generated):
        self.repository = repository
        self.folder = folder
        self.skeleton = skeleton
        self.generated = generated / skeleton.library.replace(".", "/") / skeleton.folder
        self.module = f"{skeleton.library}.{skeleton.folder}"
        self.functions = {alias: repository.function(crate, path) for alias, crate, path in readings(skeleton.uses)}
        self.problems = []

    def files(self, target):
        """All files of the cycle, path to text."""
        out = self.repository.folder(self.skeleton.crate) / "proofs" / self.skeleton.folder
        first = header(target, "cycle.txt", "the measures of the cycle, and each member's claims at and below a measure.")
        made = {out / "Proof" / "Measures.antt": first + self.measures()}
        for member in self.skeleton.members:
            name = member.name.replace("-", "_")
            first = header(target, f"{name}.txt", f"`{member.name}`, of the cycle.")
            made[out / "Proof" / f"{member.module}.antt"] = first + self.member(member)
        first = header(target, "cycle.txt", "the cycle of calls. Each member's proof is a module below.")
        made[out / "Proof.antt"] = first + self.top()
        return made

    def measures(self):
        """The module of the measures."""
        lines = ["use Prim.Native.Nat.{ℕ, _+_, _-_, _*_, _<_}"]
        lines += [line for line in self.skeleton.uses if "borrow.Fn" in line]
        for member in self.skeleton.members:
            module = self.skeleton.import_of(member.name).split(".")[-2]
            lines.append(f"use {self.skeleton.library}.{module}.Reads as {member.name}")
            lines.append(f"use {self.skeleton.library}.{module}.Kinds as {member.name}-kinds")
        return "\n".join(lines) + "\n\n" + "\n\n".join(self.measure(member) for member in self.skeleton.members) + "\n"

    def measure(self, member):
        """The measure of a member, and its claims at and below it."""
        m, kinds = member.name, f"{member.count} {member.name}-kinds.ps"
        term = self.measure_term(member)
        return (f"abbrev pub μ-{m} : Measures {kinds} ℕ\nμ-{m} κs a = {term}\n\n"
                f"abbrev pub {m}-at : ℕ → In {kinds}\n{m}-at t = and {kinds} (is {kinds} μ-{m} t) {m}.Pre\n\n"
                f"abbrev pub {m}-below : ℕ → In {kinds}\n{m}-below t = and {kinds} (falls {kinds} _<_ μ-{m} t) {m}.Pre")

    def measure_term(self, member):
        """The measure of the answers, with the parameters' names written out as parts of the arguments."""
        function = self.functions[member.name]
        if function.name not in self.folder.cycle.measures:
            self.problems.append(f"cycle.txt has no measure of {function.name}")
            return "?"
        term = self.folder.cycle.measures[function.name]
        for parameter in function.parameters:
            term = re.sub(rf"\b{parameter.name}\b", f"a {function.position(parameter.name)}", term)
        return term

    def setting(self, member):
        """What the facts of a member's code are written with."""
        said = answers.load(self.folder.file(self.functions[member.name].name))
        said.instances = self.folder.cycle.instances | said.instances
        callees = {name: self.functions.get(name) or self.functions[f"{name}-reads"] for name in member.callees}
        text = (self.generated / f"Lts-{member.name.replace('-', '_')}.antt").read_text()
        return Setting(self.functions[member.name], callees, places.parse(text), said, self.problems)

    def imports(self, member, said):
        """The imports of a member's module."""
        below = sorted(set(re.findall(r"(\S+-below) t", member.claims)))
        lines = [line for line in self.skeleton.uses if self.is_used(line, member)]
        lines.append(f"use {self.module}.Proof.Measures.{{{member.name}-at, {', '.join(below)}}}")
        lines.append("use borrow.Author.Needs.{needs}")
        if "Omega" not in said.use:
            lines.append("use native.Mathlib.Omega.{arith}")
        if "Core.Path" not in said.use:
            lines.append("use mathlib.Core.Path.{_∙_}")
        own = said.use if "Prim.Native.Nat" in said.use else "use Prim.Native.Nat.{ℕ}\n" + said.use
        return own + "\n" + "\n".join(lines) + "\n\n"

    def is_used(self, line, member):
        """Whether a member's module needs an import of the skeleton."""
        alias = line.rpartition(" as ")[2]
        if ".Lts-" in line:
            return alias == f"{member.name}-lts"
        if NOT_FOR_MEMBERS.search(line):
            return False
        if re.search(r"\.Reads as \S+$", line) and alias != member.name:
            return re.search(rf"(^|[ ,(]){re.escape(alias)}\.", member.claims) is not None
        return True

    def member(self, member):
        """The module of a member."""
        setting = self.setting(member)
        m, said = member.name, setting.answers
        text = self.imports(member, said)
        text += f"abbrev claims : ℕ → {m}-lts.Claims\nclaims t = ({member.claims})\n\n"
        text += said.pre + "\n\n" if said.pre else ""
        for invariant in member.invariants:
            kind, about = self.skeleton.signature(invariant)
            answer = said.needs.pop(member.own(invariant), answers.Answer("", "?"))
            text += f"abbrev {invariant} : {kind}\n{invariant} {about} = {answer.term}\n\n"
        given = f"(claims t) ({m}-at t) {m}.Post" + "".join(f" {i}" for i in member.invariants)
        for need, lemma in said.lemmas:
            text += written_out(setting, lemma, need, lambda place: f"{m}-lts.{place} {given}") + "\n\n"
        for need in member.needs:
            text += self.answer(setting, member, need, given)
        if said.needs:
            setting.problem(f"answers to no need: {' '.join(said.needs)}")
        names = "\n    ".join(member.invariants + [f"({member.own(need)} t)" for need in member.needs])
        text += f"pub {m}-ok : {{M : Type 1}} (t : ℕ) → {m}-lts.Closed (claims t) ({m}-at t) {m}.Post M\n"
        return text + f"{m}-ok t = {m}-lts.spec (claims t) ({m}-at t) {m}.Post\n    {names}\n"

    def answer(self, setting, member, need, given):
        """The declaration that answers a need."""
        own = member.own(need)
        answer = setting.answers.needs.pop(own, None) or answers.Answer("", self.usual(setting, member, own))
        term = written_out(setting, answer.term, own, lambda place: "?")
        text = f"{own} : (t : ℕ) → {member.name}-lts.Need-{own} {given}\n"
        text += f"unfolding {answer.unfolding}\n" if answer.unfolding else ""
        left = f"{own} t c" + (" κs" if self.skeleton.takes_shares(need) else "")
        return text + equation(left, term) + "\n\n"

    def usual(self, setting, member, need):
        """The answer of a need of which nothing is said."""
        called = re.fullmatch(r"(.*)-requires(-\d+)?", need)
        if called and called.group(1) in {other.name for other in self.skeleton.members}:
            return "omega (arith, @pre)"
        if need.startswith("same-length"):
            return same_length(setting, need, [member.own(n) for n in member.needs]) or answers.SEARCHED
        if need.startswith(("returns", "loop-again")):
            setting.problem(f"no answer to {need}")
            return "?"
        return answers.SEARCHED

    def top(self):
        """The file that ties the members."""
        members = self.skeleton.members
        lines = ["mod Measures"] + [f"mod {m.module}" for m in members]
        lines += [f"use {self.module}.{{statement}}", f"use {self.module}.Tie.{{close}}"]
        lines.append("use Measures.{" + ", ".join(f"μ-{m.name}" for m in members) + "}")
        lines += [f"use {m.module}.{{{m.name}-ok}}" for m in members]
        parts = [f"μ-{m.name}" for m in members] + [f"{m.name}-ok" for m in members]
        name = self.skeleton.name
        lines += ["", f"pub {name}-spec : {{M : Type 1}} → statement M", f"{name}-spec = close {' '.join(parts)}"]
        return "\n".join(lines) + "\n"
