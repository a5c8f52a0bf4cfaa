"""What tools/wrong takes for a refusal, on logs as the checker writes them, and how it groups wrong answers into runs."""
import pathlib
import sys
import tempfile
import unittest

sys.dont_write_bytecode = True
sys.path.insert(0, str(pathlib.Path(__file__).resolve().parent.parent))
from wrong_answers.edits import Fault, Wrong, above, has_answers, heads, reached, read_edit  # noqa: E402
from wrong_answers.reasons import reason  # noqa: E402
from wrong_answers.runs import changed, runs_of, waits  # noqa: E402

OWN = "./proofs/compare/Answers.antt:15:96: error: `returns-then-x-y`: `omega`: the goal does not follow from what it read."
LEFT_OUT = "./proofs/compare/Answers.antt:23:5: error: `returns-then-i-b`: `first_ends` was not admitted (it has holes or undetermined implicits, or was rejected), so this cannot be checked"
WAITING = "./proofs/compare/Answers.antt:26:5: error: 1 declaration that depends on `first_ends`, which was not admitted, was not checked: returns-then-i-b"
MISFIT = "./proofs/compare/Answers.antt:11:24: error: `returns-then-b-i`: `goal.returns-then-b-i`: module `Rattle.keys.proofs.compare.Goals` has no `returns-then-b-i` that can be named from here (did you mean `returns-then-i-b`?)"
USE = "./proofs/compare/Answers.antt:6:51: error: module `Rattle.keys.proofs.compare.Goals` has no `then-b-i-via-then-b-i` that can be named from here"
SHIFTED = "./proofs/compare/Answers.antt:16:9: error: `returns`: record `Else-y-x` has no field `if-b-i`"
SHORT = "./proofs/compare/Answers.antt:21:103: error: `returns`: record `Else-y-x` (nearest: .if-b-a, .if-x-y)"
OPEN = "note: src/lib.rt:17:13: it is not proved that what the function ensures holds when it returns (`returns-then-b-a`); the facts known there allow values at which this goal is false"
LAW = "./proofs/OrderLaws.antt:37:25: error: `order_swap`: computed as far as they go, the two types differ"
LAW_LEFT_OUT = "./proofs/OrderLaws.antt:70:26: error: `order_chain`: `order_trans` was not admitted (it has holes or undetermined implicits, or was rejected), so this cannot be checked"


def answer(function=None, theorem=None, crate="keys", changes=()):
    made = Wrong(crate, pathlib.Path("x.edit"), "a label")
    made.function, made.theorem, made.changes = function, theorem, list(changes)
    return made


def log(*lines):
    return "\n".join([*lines, "logic=not-proved"])


class Reasons(unittest.TestCase):
    def refused(self, expected, wrong, *lines):
        self.assertEqual(reason(wrong, log(*lines)), expected)

    def faulty(self, words, wrong, *lines):
        with self.assertRaisesRegex(Fault, words):
            reason(wrong, log(*lines))

    def test_an_error_in_its_own_proof(self):
        self.refused("compare/Answers:15: returns-then-x-y", answer("compare"), OWN, LEFT_OUT, "fn keys::compare: not proved")
        invariant = OWN.replace("Answers", "Invariants")
        self.refused("compare/Invariants:15: returns-then-x-y", answer("compare"), invariant, "fn keys::compare: not proved")

    def test_a_caller_is_not_refused_by_its_callee(self):
        for said in ("not proved; it calls `keys::compare`, which is not proved", "not proved; it calls `a` and `b`, which are not proved"):
            self.faulty("no.* reason of its own|not refused", answer("equal"), OWN, "fn keys::compare: not proved", f"fn keys::equal: {said}")

    def test_what_only_misses_another_is_no_reason(self):
        self.faulty("reason of its own", answer("compare"), LEFT_OUT, WAITING, "fn keys::compare: not proved")

    def test_a_proved_function_is_not_refused(self):
        self.faulty("reason of its own", answer("equal"), OWN, "fn keys::compare: not proved", "fn keys::equal: proved")

    def test_a_proof_that_does_not_fit_the_code_is_a_fault(self):
        for misfit in (MISFIT, SHIFTED, SHORT, USE):
            self.faulty("does not fit", answer("compare"), misfit, OWN, OPEN, "fn keys::compare: not proved")

    def test_a_goal_that_no_answer_and_no_search_proves(self):
        left = "what the code leaves to prove: returns-then-b-a"
        self.refused(left, answer("compare"), "fn keys::equal: proved", OPEN, "fn keys::compare: not proved")
        self.faulty("reason of its own", answer("compare"), OPEN, "fn keys::equal: not proved", "fn keys::compare: not proved")

    def test_a_function_without_a_proof_file(self):
        said = "no proof: expected answers in ./proofs/size/Answers.antt; `search` did not prove `returns-then-a`, `returns`"
        calls = "; it calls `keys::compare`, which is not proved"
        for line in (said, said + calls):
            self.refused("what the code leaves to prove: returns-then-a, returns", answer("size"), f"fn keys::size: {line}")
        self.faulty("reason of its own", answer("size"), "fn keys::size: no proof: it calls `keys::compare`, which is not proved")

    def test_methods_modules_and_cycles_of_calls(self):
        method = "./proofs/kind/Kind/tie/Answers.antt:9:1: error: `returns`: wrong"
        cycle = "./proofs/bytes_range/+increment_len/Answers.antt:9:1: error: `returns`: wrong"
        self.refused("kind/Kind/tie/Answers:9: returns", answer("Kind::tie"), method, "fn keys::kind::Kind::tie: not proved")
        self.refused("bytes_range/+increment_len/Answers:9: returns", answer("increment_len"), cycle, "fn keys::bytes_range::increment_len: not proved")

    def test_a_function_that_the_log_does_not_name(self):
        self.faulty("names 0 functions", answer("tie"), OWN, "fn keys::compare: not proved")

    def test_a_definition_is_refused_by_the_theorem_that_is_named(self):
        self.refused("OrderLaws:37: order_swap", answer(theorem="order_swap"), LAW, LAW_LEFT_OUT)
        self.faulty("reason of its own", answer(theorem="order_chain"), LAW, LAW_LEFT_OUT)
        self.faulty("reason of its own", answer(theorem="order_refl"), LAW, LAW_LEFT_OUT)


class Edits(unittest.TestCase):
    def read(self, *lines):
        with tempfile.TemporaryDirectory() as scratch:
            path = pathlib.Path(scratch) / "x.edit"
            path.write_text("\n".join(lines), encoding="utf8")
            return read_edit("keys", path)

    def test_what_an_edit_holds(self):
        read = self.read("wrong: a", "in: f", "# rule", "## not for the document", "file: src/lib.rt", "old:   x", "new:", "", "wrong: b", "by: t", "file: specs/A.antt", "old: y", "new: z")
        self.assertEqual([(a.label, a.function, a.theorem, a.words) for a in read], [("a", "f", None, ["rule"]), ("b", None, "t", [])])
        self.assertEqual([a.changes for a in read], [[("src/lib.rt", "  x", "")], [("specs/A.antt", "y", "z")]])

    def test_an_edit_that_would_do_less_than_it_says_is_a_fault(self):
        whole = ["wrong: a", "in: f", "file: src/lib.rt", "old: x", "new: y"]
        self.assertEqual(len(self.read(*whole)), 1)
        for lines in ([], whole[:4], whole[:2], [*whole[:4], *whole[3:]], [*whole, "old: z"], [*whole, "else: z"], whole[1:], [whole[0], *whole[2:]],
                      [*whole[:2], *whole[3:]], [*whole[:2], "by: t", *whole[2:]], [*whole[:2], "file: proofs/A.antt", *whole[3:]]):
            with self.assertRaises(Fault):
                self.read(*lines)


class Runs(unittest.TestCase):
    def test_a_change_of_a_proof_only_takes_names_along(self):
        code, proof = ("src/finds.rt", "i", "j"), "proofs/finds/find_txn/Answers.antt"
        followed = [("pub returns-then-sign-lt0 : goal.returns-then-sign-lt0", "pub returns-then-sign-le0 : goal.returns-then-sign-le0"),
                    ("returns-then-sign-lt0 c =", "returns-then-sign-le0 c =")]
        answer("find_txn", crate="places", changes=[code, *((proof, old, new) for old, new in followed)]).check()
        swapped = [("c.track_write_keys.ensures", "c.track_read_keys.ensures"), ("c.track_read_keys.ensures", "c.track_write_keys.ensures")]
        answer("serve_keys", crate="script", changes=[code, *(("proofs/served/serve_keys/Answers.antt", old, new) for old, new in swapped)]).check()
        for old, new in (
            ("omega arith", "search rules"),
            ("c.if-sign-lt0.false", "c.if-sign-lt0.true"),
            ("seek_end _ c.loop.invariant", "seek_end _ c.requires.invariant"),
            ("returns-then-x-y c = c.if-x-y.true", "returns-then-y-x c = c.if-sign-lt0.true"),
            ("pub returns-then-sign-lt0 : goal.returns-then-sign-lt0", "pub returns-then-sign-le0 : goal.returns-then-sign-eq0"),
        ):
            with self.assertRaisesRegex(Fault, "a change of a proof"):
                answer("find_txn", crate="places", changes=[code, (proof, old, new)]).check()
        with self.assertRaisesRegex(Fault, "for something else"):
            lemma = ("proofs/grow_set/Answers.antt", "length-take-le _ _", "length-drop _ _")
            answer("grow_set", crate="tracks", changes=[code, lemma]).check()
        for faulty in (
            answer("find_txn", crate="places", changes=[(proof, *followed[1])]),
            answer("find_txn", crate="places", changes=[code, ("proofs/SeekLaws.antt", "a-b", "a-c")]),
            answer("least_start", crate="places", changes=[code, (proof, *followed[1])]),
            answer(theorem="order_swap", changes=[("specs/Order.antt", "lt", "gt"), (proof, *followed[1])]),
        ):
            with self.assertRaisesRegex(Fault, "in src/ alone"):
                faulty.check()

    def test_an_old_text_stands_once_in_the_text_or_in_its_function(self):
        self.assertEqual(changed("a b c", "x", [("a", "A", None), ("c", "", None)]), "A b ")
        for text, old in (("a b c", "d"), ("a b c", ""), ("a b a", "a")):
            with self.assertRaisesRegex(Fault, "does not stand there once"):
                changed(text, "x", [(old, "D", "f")])
        with self.assertRaisesRegex(Fault, "overlap"):
            changed("a b c", "x", [("a b", "A", None), ("b c", "B", None)])
        two = "fn f() {\n    0\n}\n\nfn g() {\n    0\n}\n"
        self.assertEqual(changed(two, "x", [("    0", "    1", "g")]), "fn f() {\n    0\n}\n\nfn g() {\n    1\n}\n")

    def test_one_wrong_answer_to_a_function_in_a_run_and_wide_ones_alone(self):
        compare = ("src/lib.rt", "    a.cmp(b) as i8", "    b.cmp(a) as i8")
        other = ("src/lib.rt", "    a.cmp(b) as i8", "    a.cmp(a) as i8")
        equal = ("src/lib.rt", "    a == b", "    a == a")
        order = ("specs/Order.antt", "order [] (y ∷ ys) = lt", "order [] (y ∷ ys) = gt")
        first, second = answer("compare_on", changes=[compare]), answer("compare_on", changes=[other])
        third, rule = answer("equal", changes=[equal]), answer(theorem="order_swap", changes=[order])
        elsewhere = answer("starts_with", changes=[equal])
        self.assertEqual(runs_of([first, second, third, rule, elsewhere], False), [[first, third], [second], [rule], [elsewhere]])
        self.assertEqual(len(runs_of([first, second, third], True)), 3)

    def test_a_caller_that_the_search_proves_is_not_tried_beside_what_it_calls(self):
        calls = {"Kind::compare_start": {"Kind::compare_start", "Kind::compare_bound"}, "Kind::compare_bound": {"Kind::compare_bound", "Kind::tie_of"}}
        caller, callee, below = (answer(name, crate="kinds") for name in ("Kind::compare_start", "Kind::compare_bound", "Kind::tie_of"))
        self.assertEqual([has_answers(it) for it in (caller, callee, below)], [False, True, True])
        self.assertTrue(waits(caller, callee, calls))
        self.assertFalse(waits(callee, caller, calls))
        self.assertFalse(waits(callee, below, calls))
        self.assertIn("Kind::tie", reached("kinds")["Kind::compare_start"])

    def test_a_method_has_the_name_that_the_checker_gives_it(self):
        for line, name in (("impl Kind {", "Kind::f"), ("impl TryFrom<u8> for Kind {", "KindTryFromU8::f"), ("impl From<Kind> for u8 {", "U8FromKind::f"),
                           ("impl Chained for Keys {", "KeysChained::f"), ("impl From<fields::Malformed> for Refusal {", "RefusalFromFieldsMalformed::f"),
                           ("impl From<Result<Outcome, Refusal>> for Answer {", "AnswerFromResultOutcomeRefusal::f"), ("pub trait Chained {", "f"),
                           ("impl<'a> Fields<'a> {", "Fields::f"), ("impl Range<'_> {", "Range::f"), ("impl fmt::Display for Hex<'_> {", "HexDisplay::f")):
            self.assertEqual([it[1] for it in heads(f"{line}\n    fn f(x: u8) -> u8 {{\n}}\n")], [name])

    def test_what_stands_on_a_crate(self):
        listed = {"a": [], "b": ["a"], "c": ["b"], "d": []}
        self.assertEqual(above(["b"], listed), ["b", "c"])


if __name__ == "__main__":
    unittest.main()
