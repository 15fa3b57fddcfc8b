"""Tests that tools/check_documents finds faults that are planted in the documents and in its list
of names."""

import unittest

from program import HERE  # noqa: F401  (has the tools on the path)
from checks.documents import comments, links, merges, names, prose, surface, tree


class TestNames(unittest.TestCase):
    def setUp(self):
        self.known = tree.names()

    def planted(self, text):
        return [name for _, name in names.stale(text, self.known)]

    def test_a_stale_name_is_found(self):
        self.assertEqual(self.planted("It calls `run_graph_of_old` and then `run`."),
                         ["run_graph_of_old"])

    def test_a_stale_path_is_found(self):
        self.assertEqual(self.planted("`crates/graph_run/src/gone.rt`, `tools/build --which`"),
                         ["crates/graph_run/src/gone.rt"])

    def test_a_stale_method_is_found(self):
        self.assertEqual(self.planted("`Runtime::forgotten_call` and `Runtime::apply`"),
                         ["forgotten_call"])

    def test_what_is_there_is_not(self):
        self.assertEqual(self.planted("`Session` of `crates/vx_requests/specs`, `vxCreateImage`, "
                                      "`rt check`, `image_from width height format valid f`"), [])


class TestSurface(unittest.TestCase):
    def setUp(self):
        self.names, self.decisions = (tree.read(path) for path in (surface.LIST, surface.DECISIONS))

    def found(self, names, decisions):
        return [(crate, name) for crate, name, _ in surface.faults(names, decisions)]

    def test_nothing_is_missing(self):
        self.assertEqual(self.found(self.names, self.decisions), [])

    def test_a_name_that_is_in_neither_is_found(self):
        self.assertEqual(self.found(f"{self.names}graph_run: run run_twice\n", self.decisions),
                         [("graph_run", "run_twice")])
        self.assertEqual(self.found("pixel_pool: Pool::new Pool::lend\n", self.decisions),
                         [("pixel_pool", "Pool::lend")])

    def test_each_row_of_the_section_is_needed(self):
        told = surface.explained(self.decisions)
        for crate, listed in surface.expected(self.names).items():
            for name in listed:
                if not told.isdisjoint({name, f"{crate}::{name}"}):
                    without = self.decisions.replace(f"`{name}`", "it")
                    without = without.replace(f"`{crate}::{name}`", "it")
                    self.assertEqual(self.found(f"{crate}: {name}\n", without), [(crate, name)])

    def test_a_row_on_what_is_there_is_found(self):
        row = f"\n## {surface.SECTION}\n\n| Name | Here |\n|---|---|\n| `run` | nothing |\n"
        self.assertEqual(self.found("graph_run: run\n", row), [("graph_run", "run")])

    def test_a_private_call_does_not_count(self):
        self.assertEqual(self.found("graph_run: run_step\n", ""), [("graph_run", "run_step")])


class TestLinks(unittest.TestCase):
    def broken(self, text):
        return [target for _, target in links.broken("docs/wire.md", text)]

    def test_a_link_that_leads_nowhere_is_found(self):
        self.assertEqual(self.broken("[a](gone.md), [b](wire.md#gone)\n\n[c]: ../gone\n"),
                         ["gone.md", "wire.md#gone", "../gone"])

    def test_a_link_that_leads_somewhere_is_not(self):
        self.assertEqual(self.broken("[a](../README.md#read-on) [b](#here) [c](http://x.example)\n"
                                     "\n## Here\n"), [])


class TestMerges(unittest.TestCase):
    def test_an_unfinished_merge_is_found(self):
        text = f"a\n{'<' * 7} ours\nb\n{'=' * 7}\n{'>' * 7} theirs\n"
        self.assertEqual(list(merges.marks(text)), [2, 5])

    def test_a_quotation_is_not(self):
        self.assertEqual(list(merges.marks("> a\n>> b\n======= \n")), [])


class TestProse(unittest.TestCase):
    def wrong(self, text):
        return [wrong for _, wrong in prose.faults(text)]

    def test_a_long_sentence_is_found(self):
        long = " ".join(["word"] * (prose.MOST_WORDS + 1))
        self.assertEqual(len(self.wrong(f"A short one. {long}. Another.")), 1)
        self.assertEqual(len(self.wrong(f"| a | {long} |\n")), 1)
        self.assertEqual(self.wrong(" ".join(["word"] * prose.MOST_WORDS) + "."), [])

    def test_words_with_a_plainer_one_are_found(self):
        self.assertEqual(len(self.wrong("The rows beside a band.")), 1)
        self.assertEqual(self.wrong("The command `beside` runs.\n\n    beside at once\n"), [])

    def test_comments_of_code_and_definitions_are_read(self):
        code = "let beside = 1; // beside\n/// The rows\n/// beside a band.\nfn beside() {}\n"
        self.assertEqual([line for line, _ in comments.faults("a.rt", code)], [2])
        definition = "-- the rows beside a band\nabbrev pub beside : ℕ\n"
        self.assertEqual([line for line, _ in comments.faults("a.antt", definition)], [1])


if __name__ == "__main__":
    unittest.main()
