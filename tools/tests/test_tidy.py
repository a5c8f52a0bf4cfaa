#!/usr/bin/env python3
"""The tests of tools/tidy, on texts as they stand in the crates."""
import importlib.machinery
import importlib.util
import pathlib
import sys
import tempfile
import unittest

sys.dont_write_bytecode = True
TOOL = pathlib.Path(__file__).resolve().parent.parent / "tidy"
loader = importlib.machinery.SourceFileLoader("tidy", str(TOOL))
tidy = importlib.util.module_from_spec(importlib.util.spec_from_loader("tidy", loader))
loader.exec_module(tidy)


class Faults(unittest.TestCase):
    def faults(self, name, text):
        with tempfile.TemporaryDirectory() as folder:
            path = pathlib.Path(folder) / name
            path.write_text(text, encoding="utf8")
            return list(tidy.faults(path))

    def test_names_that_nothing_uses(self):
        laws = "-- A law.\nuse a.B.{one, ◌+◌, two}\nuse a.C as c\n\nlaw : one ≡ x + y\nlaw = refl -- two, c\n"
        self.assertEqual(self.faults("Laws.antt", laws), [(2, "`two` is brought and not used"), (3, "`c` is brought and not used")])
        self.assertEqual(self.faults("Laws.antt", laws.replace(" -- two, c", " two (c.given)")), [])
        source = "ghost use a.B.{length};\nuse keys::compare;\nuse keys::equal;\n\nfn f() { compare(1) }\n"
        self.assertEqual(self.faults("lib.rt", source), [(1, "`length` is brought and not used"), (3, "`equal` is brought and not used")])

    def test_a_part_of_a_word_or_a_field_is_no_use(self):
        laws = "-- A law.\nuse a.B.{take}\nuse a.C as reads\n\nlaw = take-append s.reads\n"
        self.assertEqual(self.faults("Laws.antt", laws), [(2, "`take` is brought and not used"), (3, "`reads` is brought and not used")])
        self.assertEqual(self.faults("Laws.antt", laws.replace("take-append s.reads", "take (reads.one)")), [])

    def test_an_operator_is_used_by_its_parts(self):
        self.assertEqual(self.faults("Laws.antt", "-- A law.\nuse a.B.{◌∷◌, []}\n\nlaw = x ∷ []\n"), [])
        self.assertEqual(len(self.faults("Laws.antt", "-- A law.\nuse a.B.{◌∷◌, []}\n\nlaw = x\n")), 2)

    def test_comments_that_point_at_a_line(self):
        self.assertEqual(self.faults("Proof.antt", "-- A proof.\n-- src/lib.rt:3:1\n"), [(2, "a comment that points at a line")])

    def test_a_file_opens_with_a_sentence(self):
        self.assertEqual(self.faults("Laws.antt", "law = refl\n"), [(1, "no sentence opens the file")])
        self.assertEqual(self.faults("Lib.antt", "pub mod Laws\n"), [])

    def test_chains(self):
        long = "c" + ".before" * 6
        answer = f"-- A proof.\nreturns : goal.returns\nreturns c = {long}.args\n"
        step = f"-- A proof.\nabbrev start : place.After-x → place.Start\nstart c = {long}\n"
        for name in ("Answers.antt", "Invariants.antt", "Proof.antt"):
            self.assertEqual([number for number, _ in self.faults(name, answer)], [2])
            self.assertEqual(self.faults(name, step), [])
            self.assertEqual(self.faults(name, answer.replace(long, long[:-7])), [])


if __name__ == "__main__":
    unittest.main()
