"""Thin functions: the signatures tell the tables, and the script keeps count of what is owned."""
import tempfile
import unittest
from pathlib import Path

from proofs import thin
from proofs.repository import Repository
from proofs.script import Script

CORE = """
pub struct Stepped {
    pub parser: Parser,
    pub answer: Answer,
}

pub struct Parser { pub at: u32 }

pub struct Answer { pub outcome: u32 }

pub fn step(source: &[u8], %s, p: Parser) -> Stepped { q }
"""
THIN = """
pub extern "C" fn go_on(parser: &mut Parser, source: &[u8], %s) -> Answer { a }
"""
ANSWERS = """== thin go_on %sstep
definitions: nextOf
result: (λ s t p. nextOf t p)
tokens: (λ s t p. tokensOf t p)
index: (λ s t p. indexOf t p)
"""


class Walks(unittest.TestCase):
    def setUp(self):
        place = tempfile.TemporaryDirectory()
        self.addCleanup(place.cleanup)
        self.root = Path(place.name)

    def made(self, lent, core=None, home="pair"):
        """The files for thin functions that are lent some tables, over a core that stands in some crate."""
        for folder in ("crates/pair/src", "crates/steps/src", "crates/pair/specs", "tools/ans/pair"):
            (self.root / folder).mkdir(parents=True)
        answers = self.root / "tools/ans/pair/thin.txt"
        answers.write_text(ANSWERS % ("" if home == "pair" else f"{home}::"))
        (self.root / "crates.txt").write_text("steps:\npair: steps\n")
        (self.root / "crates/pair/src/lib.rt").write_text(THIN % lent)
        (self.root / "crates" / home / "src/core.rt").write_text(CORE % (core or lent))
        (self.root / "crates/pair/specs/Pair.antt").write_text("unfoldable pub nextOf : ℕ\n")
        texts = thin.files(Repository(self.root), "pair", answers)
        return {path.relative_to(self.root / "crates/pair/proofs").as_posix(): text for path, text in texts.items()}

    def test_one_walk_and_an_instance(self):
        made = self.made("tokens: &mut [u32]")
        self.assertEqual(list(made), ["Thin.antt", "go_on/Proof.antt"])
        self.assertIn("use Rattle·pair·specs.specs.Pair.{nextOf}", made["go_on/Proof.antt"])
        self.assertIn("(thin-meets (λ s t p. nextOf t p) (λ s t p. tokensOf t p) 𝓤", made["go_on/Proof.antt"])

    def test_a_table_more_needs_no_other_word(self):
        made = self.made("tokens: &mut [u32], index: &mut [u32]")
        self.assertIn("(E-tokens E-index : Of (List ℕ))", made["Thin.antt"])
        self.assertIn("lent w32 3 7 8 (lent w32 4 9 10 (", made["Thin.antt"])
        self.assertIn("(λ s t p. indexOf t p) 𝓤", made["go_on/Proof.antt"])

    def test_a_core_of_another_crate_is_seen_through_its_facade(self):
        made = self.made("tokens: &mut [u32]", home="steps")
        self.assertIn("use Rattle·steps.proofs.step as core\nuse Rattle·pair·proofs.proofs.go_on as f", made["Thin.antt"])
        self.assertIn("use Rattle·steps.proofs.step.Symbol.{name as #steps·step}", made["go_on/Proof.antt"])
        self.assertIn("use Rattle·pair·proofs.proofs.go_on.Key.{name as #pair·go-on}", made["go_on/Proof.antt"])
        self.assertIn("code.calls-steps·step", made["go_on/Proof.antt"])

    def test_a_core_that_takes_other_tables_is_refused(self):
        self.assertRaises(ValueError, self.made, "tokens: &mut [u32]", "tokens: &[u32]")


class Scripts(unittest.TestCase):
    def test_positions_follow_the_steps(self):
        script = Script(["a", "b", "c"])
        script.front("b", "c")
        self.assertEqual(script.owned, ["b", "c", "a"])
        script.replace(2, "bc")
        self.assertEqual(script.position("a"), 1)
        script.front("bc")
        self.assertEqual(script.text(2), "  move ! (1 ∷ 2 ∷ []) $")
