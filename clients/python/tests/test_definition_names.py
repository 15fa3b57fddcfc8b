"""Tests that tools/check_documents finds definitions whose names say too little, or that lack a
comment."""

import unittest

from program import HERE  # noqa: F401  (has the tools on the path)
from checks.documents import definitions


def found(*names):
    """Returns the names with a fault among definitions of one crate."""
    return [name for _, name, _ in
            definitions.faults([("crates/a/specs/A.antt", name) for name in names])]


class TestDefinitions(unittest.TestCase):
    def test_a_bare_participle_is_found(self):
        self.assertEqual(found("held", "thresholded", "Reading", "written"),
                         ["held", "thresholded", "Reading", "written"])

    def test_a_fragment_is_found(self):
        self.assertEqual(found("at", "so_many"), ["at", "so_many"])

    def test_a_phrase_or_a_noun_is_not(self):
        self.assertEqual(found("rows_held", "IsWritten", "median", "threshold", "feed"), [])

    def test_a_name_of_two_crates_is_found(self):
        twice = [("crates/a/specs/A.antt", "rows_of"), ("crates/b/specs/B.antt", "rows_of")]
        self.assertEqual([path for path, _, _ in definitions.faults(twice)],
                         ["crates/b/specs/B.antt"])
        self.assertEqual(list(definitions.faults(twice[:1] * 2)), [])

    def test_a_definition_without_a_comment_is_found(self):
        text = ("-- One line on the file.\nuse A.{b}\n\npub mod c\n\n-- a\nabbrev pub d : N\n"
                "d = 1\nabbrev pub e : N\n\n-- ---- part\n\npub record F : Type 0 where\n"
                "-- all\n\nabbrev pub g : N\n")
        self.assertEqual(list(definitions.uncommented(text)), [(9, "e"), (13, "F"), (16, "g")])

    def test_the_definitions_of_the_repository_are_read(self):
        defined = list(definitions.definitions())
        self.assertIn(("crates/vx_base/specs/Image.antt", "ImageValue"), defined)
        self.assertGreater(len(defined), 1000)


if __name__ == "__main__":
    unittest.main()
