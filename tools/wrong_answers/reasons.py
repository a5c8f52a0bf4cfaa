"""Why the checker refused a wrong answer."""
import re

from .edits import Fault, Misfit

ERROR = re.compile(r"^[^ ]*?/proofs/(?P<file>[^ ]*)\.antt:(?P<line>\d+):\d+: error: (?:`(?P<name>[^`]*)`: )?(?P<said>.*)")
NOTE = re.compile(r"^note: (?P<file>src/[^ ]*):(?P<line>\d+):\d+: it is not proved that .*?\(`(?P<goal>[^`]*)`\)")
# A goal has its name from the code: where an edit moves that name, or takes a name away, the proof would not fit a right program either.
MISFIT = re.compile(r"has no field|^record `[^`]*` \(nearest: |has no `|is not in scope|is no name|no module .* that can be named")
PROOFS = ("Answers", "Invariants", "Proof")


def reason(answer, log):
    """Where the answer was refused for itself. A proof that only misses what another refusal took away is no reason, and neither is one
    that does not fit the code any more."""
    errors = [match for match in map(ERROR.match, log.splitlines()) if match]
    notes, left = [], None
    if answer.theorem:
        own = [error for error in errors if error["name"] == answer.theorem]
    else:
        path, line, notes = function_line(answer, log)
        left = re.search(r"no proof: .*; `search` did not prove ([^;]*)", line)
        own = [error for error in errors if proof_is_of(error["file"], path)]
    if misfit := next((error for error in own if MISFIT.search(error["said"])), None):
        raise Misfit(f"{answer}: its proof does not fit the code any more ({misfit['file']}:{misfit['line']}: {misfit['name'] or 'a use line'})")
    if left:
        return "what the code leaves to prove: " + ", ".join(re.findall(r"`([^`]*)`", left[1]))
    # What is said of no one declaration, as of a `use` line or of how many were left out, is no refusal.
    own = [error for error in own if error["name"] and "was not admitted" not in error["said"]]
    if own:
        return f"{own[0]['file']}:{own[0]['line']}: {own[0]['name']}"
    if notes:
        return "what the code leaves to prove: " + ", ".join(note["goal"] for note in notes)
    raise Fault(f"{answer}: not refused for a reason of its own")


def function_line(answer, log):
    """The function's path, what the checker says of it, and the goals of it that no answer and no search proves, which stand right above."""
    found, notes = [], []
    for line in log.splitlines():
        if note := NOTE.match(line):
            notes.append(note)
        elif said := re.match(r"(?:fn|impl|struct|enum) (\S+): (.*)", line):
            if re.fullmatch(rf"{answer.crate}::(?:\w+::)*{re.escape(answer.function)}", said[1]):
                found.append((said[1].split("::", 1)[1], said[2], notes))
            notes = []
    if len(found) != 1:
        raise Fault(f"{answer}: the checker's log names {len(found)} functions of that name")
    return found[0]


def proof_is_of(file, path):
    """Whether a proof file is the function's own: at its path, or that of the cycle of calls that it is in."""
    *folders, name = path.split("::")
    *above_it, folder, proof = ["", *file.split("/")]
    return proof in PROOFS and above_it[1:] == folders and (folder == name or name in folder.split("+")[1:])
