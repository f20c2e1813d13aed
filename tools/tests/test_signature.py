"""Signatures: names, positions and contracts are read, whatever stands between."""
import unittest

from proofs.signature import functions, parts

SOURCE = """
// fn no(comment: u32) -> u32 {
impl State {
    pub fn at(self, i: u32) -> Self
        ensures { λ r. ⌜ r ≡ moved self i ⌝ }
    {
        let brace = b'{';
        self
    }
}

pub extern "C" fn name_of(
    rule: u32,
    tokens: &[u32],
    mut nodes: &mut [u32],
    p: State,
) -> Out
    requires { emp }
    ensures { λ r. ⌜ ((low : Which → Reader) (E F : List ℕ) → read r E ≡ record { p = p }) ⌝ }
{
    at(p, 1) // }
}

fn gives(p: State) -> Out
    ensures { λ r. ⌜ r ≡ record { p = p; got = f } ⌝ }
{
    Out { p, got: f }
}

fn link(nodes: &mut [u32]) {
}
"""


class Signatures(unittest.TestCase):
    def setUp(self):
        self.found = {f.name: f for f in functions(SOURCE, "pieces")}

    def test_all_are_found_and_no_comment(self):
        self.assertEqual(list(self.found), ["at", "name_of", "gives", "link"])

    def test_owner_and_result(self):
        self.assertEqual((self.found["at"].owner, self.found["at"].result), ("State", "Self"))
        self.assertEqual((self.found["link"].owner, self.found["link"].result), ("", "()"))

    def test_positions_are_by_name_among_all_parameters(self):
        f = self.found["name_of"]
        self.assertEqual(f.position("rule"), ".0")
        self.assertEqual(f.position("nodes"), ".1 .1 .0")
        self.assertRaises(KeyError, f.position, "errors")

    def test_tables(self):
        f = self.found["name_of"]
        self.assertEqual((f.slices, f.written), (["tokens", "nodes"], ["nodes"]))

    def test_contract(self):
        self.assertEqual(self.found["name_of"].quantified, ["low", "E", "F"])
        self.assertEqual(self.found["gives"].quantified, [])
        self.assertTrue(self.found["gives"].gives_record)
        self.assertFalse(self.found["name_of"].gives_record)

    def test_body_ends_at_its_brace(self):
        self.assertTrue(self.found["at"].body.endswith("self\n    }"))
        self.assertIn("at(p, 1)", self.found["name_of"].body)
        self.assertNotIn("gives", self.found["name_of"].body)

    def test_parts_stand_in_no_bracket(self):
        self.assertEqual(parts("a (b, c), [d, e], f"), ["a (b, c)", "[d, e]", "f"])


if __name__ == "__main__":
    unittest.main()
