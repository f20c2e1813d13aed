"""Answer files: sections and their lines."""
import unittest

from proofs.answers import parse

TEXT = """a remark
== use
use a.b.{c}
== for
low: lower T l
== via
check2: at-token
== drop
skip* enter-loop
== lemma loop-again
again : T
again = %rw()
== need returns unfolding run block
%rw()
== need loop-less
let g = turn in
omega arith
"""


class AnswerFiles(unittest.TestCase):
    def setUp(self):
        self.said = parse(TEXT)

    def test_needs(self):
        self.assertEqual(list(self.said.needs), ["returns", "loop-less"])
        self.assertEqual(self.said.needs["returns"].unfolding, "run block")
        self.assertEqual(self.said.needs["loop-less"].term, "let g = turn in\nomega arith")

    def test_other_sections(self):
        self.assertEqual(self.said.use, "use a.b.{c}")
        self.assertEqual(self.said.instances, {"low": "lower T l"})
        self.assertEqual(self.said.via, {"check2": "at-token"})
        self.assertEqual(self.said.lemmas, [("loop-again", "again : T\nagain = %rw()")])

    def test_dropped_with_a_number_only_where_a_star_stands(self):
        self.assertTrue(self.said.dropped("skip2"))
        self.assertTrue(self.said.dropped("enter-loop"))
        self.assertFalse(self.said.dropped("enter-loop2"))
        self.assertFalse(self.said.dropped("skip-more"))

    def test_an_unknown_section_is_refused(self):
        self.assertRaises(ValueError, parse, "== neeed returns\n%rw()\n")
