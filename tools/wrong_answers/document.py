"""docs/WRONG-ANSWERS.md, made from the labels."""
from .edits import ROOT, wrong_answers

DOCUMENT = ROOT / "docs" / "WRONG-ANSWERS.md"

HEAD = """# Wrong answers that are refused

Made by `tools/wrong --docs` from the labels in `crates/*/must-fail` and `crates/*/wrong`; the gate refuses a version that is out of date.
Each line is a wrong program, or a wrong definition, that the gate tries: the proof of the function that it is in, or the theorem that is
named, must refuse it for itself. The words beside it are the rule that it breaks, where its label does not say it.

`rt ci` tries the edits in `must-fail` as they are. `tools/wrong` tries those and the others, many in one run, holds each to a reason of its own, and leaves the
prover's words of a crate under `target/wrong/NAME`.
"""


def title(crate):
    """What the crate says of itself in its first line."""
    for name in ("lib.rt", "main.rt"):
        source = ROOT / "crates" / crate / "src" / name
        if source.exists():
            first = source.read_text(encoding="utf8").splitlines()[0]
            return first.removeprefix("//").strip() if first.startswith("//") else ""
    return ""


def cell(text):
    return text.replace("|", "\\|")


def document(listed):
    parts, total = [HEAD], 0
    for crate in listed:
        answers = wrong_answers(crate)
        if not answers:
            continue
        total += len(answers)
        rows = [f"## {crate}\n", f"{title(crate)}\n" if title(crate) else "", "| in | wrong answer | rule |", "|---|---|---|"]
        for where in dict.fromkeys(answer.function or answer.theorem for answer in answers):
            for answer in answers:
                if where == (answer.function or answer.theorem):
                    place = f"`{where}`" if answer.function else f"a definition; refused by `{where}`"
                    rows.append(f"| {place} | {cell(answer.label)} | {cell(' '.join(answer.words))} |")
        parts.append("\n".join(row for row in rows if row) + "\n")
    return "\n".join(parts) + f"\n{total} wrong answers.\n"


def documents(listed, check):
    made = document(listed)
    if not check:
        DOCUMENT.write_text(made, encoding="utf8")
        return True
    same = DOCUMENT.exists() and DOCUMENT.read_text(encoding="utf8") == made
    if not same:
        print("wrong: FAILED: docs/WRONG-ANSWERS.md is out of date: `tools/wrong --docs` writes it")
    return same
