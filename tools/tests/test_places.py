"""Places: the way to a need, from a file as the prover writes it."""
import unittest

from proofs.places import parse

TEXT = """
      pub record Start : Type 0 where
        pub args : Args κs
        pub pre : Pre· κs (dens κs args)

      module _ (before· : Start) where
        pub record At-loop·own : Type 0 where
          pub nodes : List.List (Referent.rtF
              (Referent.fInt Syntax.w32) .Denot)
          pub s : Rows.whole
          pub inv : Inv·0
              nodes
              s

      pub record At-loop : Type 0 where
        pub before : Start
        pub loop : At-loop·own before

      abbrev pub Need-matches-requires : Type 0
      Need-matches-requires =
          (c : At-loop) →
          s7 .asks

      pub record After-matches : Type 0 where
        pub before : At-loop
        pub matches : Called

      abbrev pub Need-enum-known-i : Type 0
      Need-enum-known-i =
          (c : After-matches) →
          s8 .asks

      module _ (before· : After-matches) where
        pub record After-i·own : Type 0 where
          pub given : s8
              .gives

      pub record After-i : Type 0 where
        pub before : After-matches
        pub i : After-i·own before

      abbrev pub Need-enum-known-k-2 : Type 0
      Need-enum-known-k-2 =
          (c : After-i) →
          s9 .asks

      pub record After-k2 : Type 0 where
        pub before : After-i
        pub k2 : After-k2·own before

      pub record After-matches2 : Type 0 where
        pub before : After-k2
        pub matches2 : Called

      abbrev pub Need-returns : Type 0
      Need-returns = (c : After-matches2) → Post
"""


class PlacesOfAFile(unittest.TestCase):
    def setUp(self):
        self.places = parse(TEXT)

    def test_needs_have_their_places(self):
        self.assertEqual(self.places.need, {"matches-requires": "At-loop", "enum-known-i": "After-matches",
                                            "enum-known-k-2": "After-i", "returns": "After-matches2", "loop-head": "At-loop"})

    def test_the_way_goes_back_to_the_start(self):
        self.assertEqual([fact for fact, _ in self.places.way("After-matches2")], ["matches2", "k2", "i", "matches", "loop"])

    def test_paths_count_the_places_between(self):
        paths = self.places.paths("After-matches2")
        self.assertEqual(paths["matches2"], "c .matches2")
        self.assertEqual(paths["matches"], "c .before .before .before .matches")
        self.assertEqual(paths["args"], "c .before .before .before .before .before .args")

    def test_what_a_loop_changes_is_told_by_its_own_record(self):
        self.assertEqual(self.places.loops, {"loop": ["nodes", "s", "inv"]})

    def test_enums_taken_apart_are_known(self):
        self.assertEqual(self.places.taken_apart, {"i", "k2"})

    def test_only_what_says_something_is_shown(self):
        self.assertEqual(self.places.shown("After-matches2", hidden=("k",)), ["matches2", "i", "matches", "loop"])
