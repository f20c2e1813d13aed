"""Writes the proofs of thin functions: they are lent a struct and tables, and call a core function that takes the struct by value.

`Thin.antt` walks the code once, for a callee of any name and any contract of the shape; each thin function's proof is an
instance of it. Signatures tell the tables and the types; the answer file `thin.txt` tells the definitions.
"""
import re
from dataclasses import dataclass

from .answers import entries, sections
from .script import Script
from .thin_texts import (APART, CLAUSES, CODE, DECLARATIONS, EXITS, HEAD, INSTANCE, LENT, MEETS, OWNED, PASSED, WALK)

BITS = {"u8": "w8", "u16": "w16", "u32": "w32", "u64": "w64", "usize": "w64"}
ANSWERS = "thin.txt"


@dataclass(frozen=True)
class Slice:
    """A table: its place among the tables, its name, whether it is written, and the width of its words."""

    index: int
    name: str
    written: bool
    width: str

    @property
    def kind(self):
        """The type of the reference."""
        return "MutSlice" if self.written else "ShrSlice"

    @property
    def lifetime(self):
        """Its lifetime in the thin function, where the struct's comes first."""
        return part("κs", self.index + 1)

    @property
    def share(self):
        """The share of its lifetime's token."""
        return part("qs", self.index + 1)

    @property
    def given(self):
        """It among the thin function's arguments."""
        return part("a", self.index + 1)

    @property
    def fits(self):
        """That its machine value fits its type."""
        return f"(tt, (tt, (record {{ fits = room-{self.name} .0 }}, tt)))"

    def owner(self, name):
        """The row of the table, under a name for its lifetime."""
        return f"{self.kind} (named {name}) ({self.lifetime}) {self.width}"


@dataclass(frozen=True)
class Instance:
    """A thin function, its core with the crate of that, and the definitions that its contract names."""

    name: str
    home: str
    core: str
    definitions: list
    result: str
    ends: dict

    def terms(self, shape):
        """What the walk is taken at: the result, and the end of each table that is written."""
        return " ".join([self.result] + [self.ends[s.name] for s in shape.written])


class Shape:
    """What the signatures of the thin functions tell."""

    def __init__(self, repository, crate, thin, core):
        self.repository, self.crate = repository, crate
        self.core, self.name = core, thin.name
        self.slices = [slice_of(i, p) for i, p in enumerate(thin.parameters[1:])]
        self.written = [s for s in self.slices if s.written]
        self.read = [s for s in self.slices if not s.written]
        self.struct = thin.parameters[0].type.removeprefix("&mut ")
        self.answer, self.stepped = thin.result, core.result
        self.struct_field, self.answer_field = fields(repository, crate, self.stepped)
        self.home = {t: repository.declares(t, crate) for t in (self.struct, self.answer, self.stepped)}
        self.count = len(self.slices)
        self.locals = self.count + 4 + 2 * len(self.written)

    def module(self, crate, part):
        """The module of a crate's `specs` or `proofs`, as the made files name it."""
        return self.repository.module(crate, part, self.crate)

    def suits(self, thin, core):
        """Refuses a thin function or a core that is lent other tables, or returns something else."""
        tables = [p.type for p in thin.parameters[1:]]
        if [slice_of(i, p) for i, p in enumerate(thin.parameters[1:])] != self.slices or thin.result != self.answer:
            raise ValueError(f"{thin.name} is not lent what {self.name} is")
        if [p.type for p in core.parameters] != tables + [self.struct] or core.result != self.stepped:
            raise ValueError(f"{core.name} does not take what {thin.name} is lent, and the struct behind it")

    def reference(self, table):
        """The local that a written table is lent on by; the next has its slice."""
        return self.count + 4 + 2 * self.written.index(table)

    @property
    def passed(self):
        """The locals that the core is passed."""
        return [self.reference(s) + 1 if s.written else s.index + 2 for s in self.slices] + [self.count + 2]

    def fill(self, text, **more):
        """A text with its gaps filled."""
        names = dict(P=self.struct, N=self.answer, S=self.stepped, pf=self.struct_field, af=self.answer_field,
                     U=self.module(self.crate, "proofs"), m=self.count, m1=self.count + 1, m2=self.count + 2, m3=self.count + 3)
        return text % (names | more)


def slice_of(index, parameter):
    """The table that a parameter is."""
    return Slice(index, parameter.name, parameter.is_written, re.search(r"\[(\w+)\]", parameter.type).group(1))


def fields(repository, crate, struct):
    """The two fields of what the core returns: the struct, then the answer."""
    home = repository.declares(struct, crate)
    for path in repository.sources(home):
        declared = re.search(r"struct %s \{(.*?)\}" % re.escape(struct), path.read_text(), re.S)
        if declared:
            return re.findall(r"(\w+):", declared.group(1))
    raise LookupError(f"no struct {struct}")


def part(whole, index):
    """A part of a tuple."""
    return whole + " .1" * index + " .0"


def tuple_of(parts):
    """A tuple of parts."""
    return "".join(f"({one}, " for one in parts) + "tt" + ")" * len(parts)


def listed(parts):
    """A list of parts."""
    return "".join(f"{one} ∷ " for one in parts) + "[]"


def subscript(number):
    """A number as an index of a name."""
    return "".join("₀₁₂₃₄₅₆₇₈₉"[int(digit)] for digit in str(number))


def head(shape):
    """The remark at the top of `Thin.antt`, and its imports."""
    bits = ", ".join(sorted({BITS[s.width] for s in shape.written}))
    widths = ", ".join(sorted({s.width for s in shape.slices}))
    lines = [shape.fill(HEAD, bits=bits, widths=widths)]
    for name, alias in [(shape.struct, "P"), (shape.answer, "N"), (shape.stepped, "S")]:
        specs, proofs = (shape.module(shape.home[name], part) for part in ("specs", "proofs"))
        lines.append(f"use {specs}.declared.{name}.{{{name}}}")
        lines.append(f"use {proofs}.{name} as {alias}\nuse {proofs}.{name}.Laws as {alias}′")
    lines.append(f"use {shape.module(shape.core.crate, 'proofs')}.{shape.core.name} as core")
    lines.append(f"use {shape.module(shape.crate, 'proofs')}.{shape.name} as f\n")
    return lines


def code(shape):
    """The MIR, with the callee's name left open."""
    types = ["N′.mir", "(tyRef (named 0) mut (pointee (P.the-row .written)))"]
    types += [f"(pointee ({s.kind} (named {s.index + 1}) [] {s.width} .written))" for s in shape.slices]
    types += ["P′.mir", "S′.mir"]
    for s in shape.written:
        types += [f"(tyRef erased mut (tyInt {BITS[s.width]}))", f"(pointee (MutSlice erased [] {s.width} .written))"]
    lent = "".join(
        f"lent {BITS[s.width]} {s.index + 2} {shape.reference(s)} {shape.reference(s) + 1} (" for s in shape.written)
    return shape.fill(CODE, locals="".join(f"local {t} valueLocal ∷ " for t in types), lent=lent,
                       passed="".join(f"copy (place {k} []) ∷ " for k in shape.passed), shut=")" * len(shape.written))


def kept_at_exit(shape):
    """What is had of the parameters at exit, and the reason for each."""
    stays = ["stay-ref (0 ∷ []) tt (plain (λ _. P.the-row))"]
    goes = [f"goes-ref 𝓤 H A W {shape.count + 1} 0 tt (plain (λ _. P.the-row))"]
    for s in shape.slices:
        name, row = s.index + 1, f"(plain (λ _. {s.width}))"
        if s.written:
            stays.append(f"gave-slice ({name} ∷ []) tt {row}")
            goes.append(f"goes-gave-slice 𝓤 H A W {shape.count + 1} {name} tt {row}")
        else:
            stays.append(f"stay-none-slice ({name} ∷ []) tt {row} yes")
            goes.append(f"goes-none-slice 𝓤 H A W {shape.count + 1} ({name} ∷ []) tt {row} yes")
    return tuple_of(stays), tuple_of(goes)


def declarations(shape):
    """What is had at exit, the machine values, and how definitions are taken at the arguments."""
    return shape.fill(
        DECLARATIONS, stays=kept_at_exit(shape)[0], lists="List ℕ → " * shape.count,
        called=" ".join(f"(now ({part('x', s.index)}))" for s in shape.slices), struct=part("x", shape.count),
        thin=" ".join(f"(now ({part('x', s.index + 1)}))" for s in shape.slices))


def clauses(shape):
    """The clauses of the callee and of the thin function."""
    return shape.fill(
        CLAUSES, ends=" ".join("E-" + s.name for s in shape.written),
        called="".join(f" × (now ({part('end', s.index)}) ≡ of-called κs x E-{s.name})" for s in shape.written),
        thin="".join(f" × (now ({part('end', s.index + 1)}) ≡ of-thin κs x E-{s.name})" for s in shape.written))


def owned(shape):
    """The arguments, what they own, and what the callee is passed."""
    lines = [shape.fill(OWNED)]
    for s in shape.slices:
        lines.append(f"    abbrev v-{s.name} : Val\n    v-{s.name} = sliceVal ({s.given} .ptr) (length ({s.given} .now))\n")
    for s in shape.read:
        lines.append(f"    -- what `{s.name}` owns\n    abbrev Own-{s.name} : Fml\n"
                     f"    Own-{s.name} = {s.owner(s.index + 1)} .own ({s.given}) (v-{s.name} ∷ [])\n")
    values = [f"v-{s.name} ∷ []" for s in shape.slices]
    lines.append(shape.fill(
        PASSED, vals=tuple_of(["vptr b o ∷ []"] + values),
        tokens="".join(f"‵ (flft ({s.lifetime}) ({s.share})) ⊛ " for s in shape.slices),
        owners="(%s)" % listed(s.owner(s.index + 1) for s in shape.slices),
        args=tuple_of([s.given for s in shape.slices] + ["h"]), passed=tuple_of(values + ["machine-P h ∷ []"]),
        lists="List ℕ → " * len(shape.written), last=" ".join("z-" + s.name for s in shape.written),
        said="".join(f" × (z-{s.name} ≡ of-thin κs a E-{s.name})" for s in shape.written)))
    return lines


def apart(shape):
    """What is owned at entry gives what the callee asks."""
    script = Script(["P", "rest", "Toks"])
    script.front("rest")
    for s in shape.slices:
        script.front("rest")
        script.split("fsplit", s.name, "rest")
        if not s.written:
            script.emit(f"use1 W (‵ Own-{s.name} ⊛ ‵ Own-{s.name}) (shr-slice-copy 𝓤 H A W (named {s.index + 1}) "
                        f"({s.lifetime}) {s.width} .twice ({s.given}) (v-{s.name} ∷ [])) $")
            script.split("split", s.name, "kept-" + s.name)
    script.note("the arguments, in the callee's order")
    script.join("P", "rest", into="all")
    for s in reversed(shape.slices):
        script.join(s.name, "all", into="all")
    script.line()
    script.front("Toks", "all")
    owners = "(%s)" % listed([s.owner(s.index) for s in shape.slices] + ["P.the-row"])
    script.emit(f"use2 W (raw (Core 𝓤 H A .pre to)) (qed W (Toks ∷ ‵ (owns {owners} args passed) ∷ []) "
                "∵ join ! $ frame ! $ done !) $")
    script.replace(2, "pre")
    script.line()
    script.front("pre", *["kept-" + s.name for s in shape.read])
    script.emit("frame ! $ done !")
    goal = listed(["raw (Core 𝓤 H A .pre to)"] + [f"‵ Own-{s.name}" for s in shape.read])
    return shape.fill(APART, goal=f"(⋆ 𝓤 H A ({goal}))", script=script.text(8))


def exits(shape):
    """What the walk has at exit gives what the thin function promises."""
    script = Script(["obs", "bor", "tok", "Toks"] + [s.name for s in shape.slices])
    script.front("tok", "Toks")
    script.emit("join ! $ frame ! $")
    script.replace(2)
    script.note("what is had of the parameters, in their order, and the result")
    script.emit("feqI ! (List Val) (vptr b o ∷ []) (vptr b o ∷ []) refl $ fjoin3 ! $")
    script.replace(2, "ref")
    script.emit("nothing ! $")
    script.replace(0, "all")
    for s in reversed(shape.slices):
        script.join(s.name, "all", into="all")
    script.join("ref", "all", into="all")
    script.line()
    script.emit(f"owned ! N.the-row (Is N.the-row) (LL.makes N.the-type N′.the-plain 𝓤 H A) (r .{shape.answer_field}) _ is $")
    script.replace(0, "res")
    script.front("all", "res")
    script.emit("done !")
    had = "".join(f"‵ (finally {s.width} ({s.given} .name) z-{s.name}) ∷ " if s.written else f"‵ Own-{s.name} ∷ "
                  for s in shape.slices)
    return shape.fill(
        EXITS, had=had, lists="List ℕ → " * len(shape.written), last=" ".join("z-" + s.name for s in shape.written),
        long="".join(f"length z-{s.name} ≡ length ({s.given} .now) → " for s in shape.written),
        lengths=" ".join("len-" + s.name for s in shape.written),
        ends=tuple_of([f"r .{shape.struct_field}"] + ["z-" + s.name if s.written else "tt" for s in shape.slices]),
        kept=tuple_of(["tt"] + ["len-" + s.name if s.written else "tt" for s in shape.slices]),
        said="".join(f", e .{k + 1}" for k in range(len(shape.written))), script=script.text(8))


class Steps:
    """The walk over the code, in the order of its statements."""

    def __init__(self, shape):
        self.shape = shape
        locals_ = [name for k in reversed(range(shape.locals)) for name in (f"_{k}", f"d{k}")]
        self.script = Script(locals_ + ["toks", "owns"])
        self.depth = 0
        self.values = "vptr b o ∷ " + listed("v-" + s.name for s in shape.slices)

    def at(self, local):
        """Where the cell of a local stands."""
        return self.script.position(f"_{local}")

    def bind(self, step):
        """A step that ends in a binder, to be closed at the end."""
        self.script.emit(step)
        self.depth += 1

    def typed(self, row, value, known):
        """That a value has its type."""
        return f"(LL.lawful {row}.the-type {row}′.the-laws 𝓤 H A W .typed {value} _ {known} .0)"

    def enter(self):
        """The locals are made, and the parameters put in them."""
        z, shape = self.script, self.shape
        z.emit(f"enter ! C Λ (thin k) ({self.values}) _ $")
        z.line()
        names = " ".join(f"alloc1 ! (λ l{subscript(k)}." for k in range(shape.locals))
        z.emit(names + " alloc0 ! $ params1 ! $")
        z.line()
        self.depth = shape.locals
        z.emit(f"pass1 ! (init ! {self.at(1)} refl (tt, tt)) $")
        for s in shape.slices:
            z.emit(f"pass1 ! (init ! {self.at(s.index + 2)} refl {s.fits}) $")
        z.emit("pass0 ! $")

    def open(self):
        """The borrow of the struct is opened."""
        z = self.script
        z.note("[the locals, the last first; the tokens; what the parameters own]: the borrow of the struct is opened")
        z.front("toks")
        z.split("split", "tok", "Toks")
        z.front("owns")
        z.split("fsplit", "ref", "rest")
        z.split("fsplit3", "eq", "obs", "bor")
        z.drop()
        z.front("obs", "bor", "tok")
        z.line()
        self.bind("opens ! tt P.the-row {h = h} b o (λ vs. spelt ! P.the-row (Is P.the-row) (shows 𝓤 H A P.the-row) "
                  "(LL.vals P.the-type P′.the-laws) (LL.tells P.the-type P′.the-laws) fullShare h vs b o $")
        z.replace(3, "cell", "own", "open", "obs", "auth")
        z.line()
        z.front("own")
        self.bind("peeks ! P.the-row (Is P.the-row) (shows 𝓤 H A P.the-row) h (machine-P h ∷ []) (λ was.")

    def lend(self):
        """The struct is copied out, and the written tables are lent on."""
        z, shape = self.script, self.shape
        z.note("[what the struct owns; its cell; the open borrow; obs; auth; what the slices own; their tokens; the locals]: "
               "the struct is copied out, and each `&mut [T]` is lent on")
        z.emit(f"assigns ! (of-opd ! (load ! (from ! (hop ! (look ! {self.at(1)} refl) (stop !))) "
               f"(look-raw ! {z.position('cell')} refl))) (from ! (stop !)) "
               f"(init ! {self.at(shape.count + 2)} refl {self.typed('P', 'h', 'was')}) $")
        z.line()
        for s in shape.written:
            local, reference = self.at(s.index + 2), self.at(shape.reference(s))
            z.emit(f"assigns ! (addr ! (from ! (fld ! refl (hop ! (look-in ! {local} (sub ! 0 refl (whole !))) (stop !))))) "
                   f"(from ! (stop !)) (init ! {reference} refl (tt, tt)) $")
            z.line()
            z.emit(f"assigns ! (agg ! (and-then ! (load ! (from ! (stop !)) (look ! {reference} refl)) "
                   f"(and-then ! (load ! (from ! (fld ! refl (stop !))) (look-in ! {local} (sub ! 1 refl (whole !)))) "
                   f"(no-more !)))) (from ! (stop !)) (init ! {self.at(shape.reference(s) + 1)} refl {s.fits}) $")
            z.line()

    def call(self):
        """The call, and what the callee returned."""
        z, shape = self.script, self.shape
        z.note("the call")
        z.front("own", "rest", "Toks")
        pack = " ⊛ ".join(["raw (Core 𝓤 H A .pre to)"] + [f"‵ Own-{s.name}" for s in shape.read])
        z.emit(f"use3 W ({pack}) apart $")
        z.replace(3, "pack")
        names = ["pre"] + ["kept-" + s.name for s in shape.read]
        for name in names[:-1]:
            z.front("pack")
            z.split("split", name, "pack")
        z.owned[z.position("pack")] = names[-1]
        z.front("pre")
        z.line()
        given = "".join(f"(and-then ! (load ! (from ! (stop !)) (look ! {self.at(k)} refl)) " for k in shape.passed)
        self.bind(f"calls-at ! fm (Core 𝓤 H A) known to {given}(no-more !){')' * len(shape.passed)} (λ w.")
        z.replace(1, "post")
        z.line()
        self.bind(f"use1 W (later (some (λ (r : {shape.stepped}). (Toks ⊛ ‵ (S.the-row .own r (w ∷ []))) ⊛ raw (ensured 𝓤 H A "
                  "core.ended (calledOf 𝓤) (κs .1) args tt r)))) (id⊢ 𝓤 _) $ await ! tt $ pick ! (λ r.")
        z.replace(1, "tr", "ens")

    def hear(self):
        """What the callee ensures is taken up, at the tables that it left."""
        z, shape = self.script, self.shape
        z.note("what the callee ensures, at some last lists")
        said = "Said r " + " ".join(f"({end_of(s)})" for s in shape.written)
        kinds = " × (".join("List ℕ" if s.written else "Unit {0}" for s in shape.slices)
        kinds += " × (Unit {0} × Unit {0})" + ")" * (shape.count - 1)
        z.emit("split ! $")
        z.front("ens")
        self.bind(f"use1 W (some (λ (zs : {kinds}). ‵ (lasts core.ended (κs .1) args zs) ⊛ raw (fact 𝓤 ({said})))) "
                  "(id⊢ 𝓤 _) $ pick ! (λ zs.")
        z.line()
        z.split("split", "lasts", "said")
        z.front("said")
        self.bind(f"heard ! ({said}) (λ e.")
        z.replace(1)
        z.line()
        for s in shape.slices:
            z.front("lasts")
            z.split("fsplit", "one", "lasts")
            if s.written:
                z.split("fsplit", "fin-" + s.name, "eq")
                z.front("eq")
                self.bind(f"feqL ! (λ len-{s.name}.")
                z.replace(1)
            else:
                z.drop()
        z.line()

    def land(self):
        """The result is put in its local."""
        z, target = self.script, self.shape.count + 3
        z.front("tr")
        z.split("split", "Toks", "res")
        z.front("res")
        self.bind("peeks ! S.the-row (Is S.the-row) (shows 𝓤 H A S.the-row) r (w ∷ []) (λ is.")
        z.line()
        z.emit(f"land ! (from ! (stop !)) (init ! {self.at(target)} refl {self.typed('S', 'r', 'is')}) $ "
               f"rewrite ! {self.at(target)} (λ (u : Val). ‵ (fat fullShare S′.mir l{subscript(target)} 0 u)) "
               "(ap only (LL.tells S.the-type S′.the-laws r _ is)) refl $")

    def close(self):
        """The struct is stored, the answer copied, and the borrow closed."""
        z, shape = self.script, self.shape
        stepped, new = self.at(shape.count + 3), f"(r .{shape.struct_field})"
        z.note("the struct is stored, the answer copied to the result, and the borrow closed at the new struct")
        z.emit(f"assigns ! (of-opd ! (load ! (from ! (fld ! refl (stop !))) (look-in ! {stepped} (sub ! 0 refl (whole !))))) "
               f"(from ! (hop ! (look ! {self.at(1)} refl) (stop !))) "
               f"(store-raw ! {z.position('cell')} refl {self.typed('P', new, '(parser-of r w is)')}) $")
        z.line()
        answer = self.typed("N", f"(r .{shape.answer_field})", "(answer-of r w is)")
        z.emit(f"assigns ! (of-opd ! (load ! (from ! (fld ! refl (stop !))) (look-in ! {stepped} (sub ! 1 refl (whole !))))) "
               f"(from ! (stop !)) (init ! {self.at(0)} refl {answer}) $")
        z.line()
        z.emit(f"owned ! P.the-row (Is P.the-row) (LL.makes P.the-type P′.the-plain 𝓤 H A) {new} _ (parser-of r w is) $")
        z.replace(0, "own")
        z.front("cell", "own", "open", "obs", "auth")
        z.emit(f"closes ! tt P.the-row {new} (machine-P {new} ∷ []) b o $")
        z.replace(5, "obs", "bor", "tok")
        z.line()

    def leave(self):
        """The locals are freed, and what is left is what the promise needs."""
        z, shape = self.script, self.shape
        forgets = " ".join(f"forget ! {self.at(k)} refl $" for k in reversed(range(shape.locals)))
        z.emit(f"returns ! (look ! {self.at(0)} refl) $ {forgets}")
        z.line()
        for k in range(shape.locals):
            z.front(f"_{k}", f"d{k}")
            z.emit("free1 ! $")
            z.replace(2)
        z.emit("free0 ! $")
        z.line()
        left = ["obs", "bor", "tok", "Toks"] + ["fin-" + s.name if s.written else "kept-" + s.name for s in shape.slices]
        lasts = " ".join(f"({end_of(s)})" for s in shape.written)
        lengths = " ".join("len-" + s.name for s in shape.written)
        z.emit(f"keep ! ({listed(z.position(name) for name in left)}) $ by ! (exits r {lasts} e {lengths} (answer-of r w is))"
               + ")" * self.depth)


def end_of(table):
    """The last list of a table, among all."""
    return "zs" + " .1" * table.index + " .0"


def walk(shape):
    """The walk over the code."""
    steps = Steps(shape)
    for step in (steps.enter, steps.open, steps.lend, steps.call, steps.hear, steps.land, steps.close, steps.leave):
        step()
    owners = listed(["MutRef (named 0) (κs .0) P.the-row"] + [s.owner(s.index + 1) for s in shape.slices])
    return shape.fill(
        WALK, rooms="".join(f"Room {s.width} (length ({s.given} .now)) → " for s in shape.slices), values=steps.values,
        room=" ".join("room-" + s.name for s in shape.slices), owners=f"({owners})", script=steps.script.text(10))


def meets(shape):
    """From the walk to the thin function's contract."""
    tells = [f"{'mut' if s.written else 'shr'}-slice-tells (named {s.index + 1}) ({s.lifetime}) {s.width}" for s in shape.slices]
    return shape.fill(
        MEETS, vals=tuple_of(["ptr-vals"] + ["slice-vals"] * shape.count),
        tells=tuple_of(["mut-tells (named 0) (κs .0) P.the-row"] + tells),
        rooms=" ".join(f"({part('are', s.index + 1)} .0 .1)" for s in shape.slices), goes=kept_at_exit(shape)[1])


def walk_file(shape):
    """The text of `Thin.antt`."""
    texts = [*head(shape), LENT, code(shape), declarations(shape), clauses(shape), *owned(shape)]
    return "\n".join(texts + [apart(shape), exits(shape), walk(shape), meets(shape)]) + "\n"


def instance_file(repository, shape, instance):
    """The text of a thin function's proof."""
    key = f"{shape.crate}·{instance.name}".replace("_", "-")
    core_key = f"{instance.home}·{instance.core}".replace("_", "-")
    homes = {repository.home(name, shape.crate) for name in instance.definitions}
    uses = "\n".join(
        f"use {home}.{{{', '.join(d for d in instance.definitions if repository.home(d, shape.crate) == home)}}}"
        for home in sorted(homes))
    return shape.fill(INSTANCE, crate=shape.crate, f=instance.name, h=instance.home, g=instance.core, specs=uses,
                       xs=instance.terms(shape), G=shape.module(instance.home, "proofs"), kf=f"#{key}", kg=f"#{core_key}",
                       cg=f"calls-{core_key}", fk=instance.name.replace("_", "-"))


def instances(path):
    """The thin functions of an answer file, which lies in the folder of their crate; a core of another crate has that before its name."""
    found = []
    for kind, about, body in sections(path.read_text()):
        if kind != "thin":
            raise ValueError(f"no kind of section here: == {kind}")
        name, core = about.split()
        home, _, core = core.rpartition("::")
        told = entries(body)
        found.append(Instance(name, home or path.parent.name, core, told.pop("definitions").split(), told.pop("result"), told))
    return found


def files(repository, crate, path):
    """All files of a crate's thin functions, path to text."""
    thin = instances(path)
    pairs = [(repository.function(crate, one.name), repository.function(one.home, one.core)) for one in thin]
    shape = Shape(repository, crate, *pairs[0])
    for pair in pairs:
        shape.suits(*pair)
    folder = repository.folder(crate) / "proofs"
    made = {folder / "Thin.antt": walk_file(shape)}
    for one in thin:
        made[folder / one.name / "Proof.antt"] = instance_file(repository, shape, one)
    return made
