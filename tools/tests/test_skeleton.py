"""Skeletons: what the prover prints for a function, and for a cycle."""
import unittest

from proofs import skeleton

PRINTED = """fn readers::one: no proof
help: write crates/readers/proofs/one/Proof.antt with these lines:
    use a.b.{c}

    returns : tie.Need-returns
    returns c = ?
help: write crates/readers/proofs/+for_in+stmt/Proof.antt with these lines:
    use Rattle·readers·proofs.proofs.for_in.Reads as for-in
    use Rattle·readers·proofs.proofs.+for_in+stmt.Lts-for_in as for-in-lts
    use Rattle·readers·proofs.proofs.stmt.Reads as stmt
    use Rattle·parser.proofs.State.at_token.Reads as at-token-reads
    use Rattle·readers·proofs.proofs.+for_in+stmt.{
        statement,
    }

    abbrev μ-for-in : Measures 3 for-in-kinds.ps ℕ
    μ-for-in κs a = ?

    abbrev μ-stmt : Measures 3 stmt-kinds.ps ℕ
    μ-stmt κs a = ?

    abbrev stmt-Inv-loop : stmt-lts.InvT-loop
    stmt-Inv-loop tokens errors₀ p = ?

    stmt-returns : (t : ℕ) → stmt-lts.Need-returns
    stmt-returns t c = ?

    stmt-for-in-requires : (t : ℕ) → stmt-lts.Need-for-in-requires
    stmt-for-in-requires t c κs = ?

    pub +for-in+stmt-spec : {M : Type 1} → statement M
    +for-in+stmt-spec =
        close μ-for-in μ-stmt
        (λ t. for-in-lts.spec (stmt-below t, stmt.Post) (for-in-at t) for-in.Post (for-in-returns t))
        (λ t. stmt-lts.spec (
            at-token-reads.Asked,
            at-token-reads.Learnt,
            for-in-below t,
            for-in.Post,
        ) (stmt-at t) stmt.Post stmt-Inv-loop
        (stmt-for-in-requires t)
        (stmt-returns t))
logic=not-proved
"""


class Skeletons(unittest.TestCase):
    def setUp(self):
        self.cycle = skeleton.Cycle(skeleton.printed(PRINTED, "+for_in+stmt"))

    def test_a_functions_skeleton_ends_where_the_next_line_begins(self):
        self.assertEqual(skeleton.printed(PRINTED, "one"), "use a.b.{c}\n\nreturns : tie.Need-returns\nreturns c = ?\n")
        self.assertIsNone(skeleton.printed(PRINTED, "two"))

    def test_the_cycle_has_its_crate_and_members(self):
        self.assertEqual((self.cycle.crate, self.cycle.folder), ("readers", "+for_in+stmt"))
        self.assertEqual([(m.name, m.count, m.module) for m in self.cycle.members], [("for-in", "3", "ForIn"), ("stmt", "3", "Stmt")])

    def test_a_member_has_callees_invariants_and_needs_in_order(self):
        stmt = self.cycle.members[1]
        self.assertEqual(stmt.callees, ["at-token", "for-in"])
        self.assertEqual(stmt.invariants, ["stmt-Inv-loop"])
        self.assertEqual(stmt.needs, ["stmt-for-in-requires", "stmt-returns"])
        self.assertEqual(self.cycle.signature("stmt-Inv-loop"), ("stmt-lts.InvT-loop", "tokens errors₀ p"))

    def test_lifetimes_are_taken_where_the_skeleton_does(self):
        self.assertTrue(self.cycle.takes_shares("stmt-for-in-requires"))
        self.assertFalse(self.cycle.takes_shares("stmt-returns"))

    def test_imports_tell_where_functions_are(self):
        self.assertIn("use Rattle·readers·proofs.proofs.+for_in+stmt.{ statement, }", self.cycle.uses)
        self.assertEqual(skeleton.readings(self.cycle.uses), [
            ("for-in", "readers", "for_in"), ("stmt", "readers", "stmt"), ("at-token-reads", "parser", "State.at_token")])
