"""First answers, rows of functions, and imports that nothing uses."""
import unittest

from proofs import templates
from proofs.looks import layers
from proofs.signature import functions
from proofs.single import used_imports

SOURCE = """
fn one(nodes: &mut [u32], p: State) -> Out
    ensures { λ r. ⌜ ((T : List ℕ) (low : Which → Reader) → r ≡ run T low) ⌝ } { two(nodes, three(p)) }
fn two(nodes: &mut [u32], p: State) -> Out { three(p) }
fn three(p: State) -> Out { p }
"""


class Crates:
    """Stands in for a repository."""

    def function(self, crate, name):
        """The function of a name."""
        return next(f for f in functions(SOURCE, crate) if f.name == name)

    def home(self, name, _):
        """All definitions stand in one module."""
        return "Rattle·parser.specs.Programs"


class Templates(unittest.TestCase):
    def test_a_leaf_binds_what_its_contract_quantifies_over(self):
        text = templates.leaf(Crates(), Crates().function("pieces", "one"), ["make-requires", "returns", "returns-2"], ["run", "body"])
        self.assertEqual(text, "== use\nuse Rattle·parser.specs.Programs.{run, body}\n"
                               "== need returns unfolding run body\nλ T low. %rw()\n"
                               "== need returns-2 unfolding run body\nλ T low. %rw()\n")

    def test_callees_are_looked_at_first(self):
        self.assertEqual(layers(Crates(), "pieces", ["one", "two", "three"]), [["three"], ["two"], ["one"]])
        self.assertEqual(layers(Crates(), "pieces", ["one", "three"]), [["three"], ["one"]])

    def test_imports_that_nothing_uses_are_left_out(self):
        used = "use a.{b}\nuse c.Tie as tie\nuse d.Reads as d-reads"
        self.assertEqual(used_imports(used + "\nuse e.Lts as lts", "f : tie.Need\nf = my-lts.x d-reads.Asked"), used)
