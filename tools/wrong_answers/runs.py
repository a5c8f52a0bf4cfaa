"""Many wrong answers in one run of the kit's checker."""
import collections
import re
import shutil

import kit

from .edits import Fault, ROOT, has_answers, place_of, reached

TARGET = ROOT / "target"
FLAGS = ["--jobs", "1"]


def changed(text, where, changes):
    """The text with every change made, each at its own place: an old text, a new one, and the function that it is in."""
    places = []
    for old, new, function in changes:
        at = place_of(text, old, function)
        if at is None:
            raise Fault(f"{where}: an 'old:' text does not stand there once, nor once in its function: {old}")
        places.append((at, at + len(old), new))
    places.sort()
    if any(a[1] > b[0] for a, b in zip(places, places[1:])):
        raise Fault(f"{where}: two 'old:' texts overlap")
    for start, end, new in reversed(places):
        text = text[:start] + new + text[end:]
    return text


def apart(run, answer, calls):
    """Whether the answer can join a run: no other is in its function or keeps the checker from it, and none changes the text that it changes."""
    if run[0].is_wide() or answer.is_wide():
        return False
    if any(other.function == answer.function or waits(other, answer, calls) or waits(answer, other, calls) for other in run):
        return False
    try:
        edited([*run, answer])
        return True
    except Fault:
        return False


def waits(caller, callee, calls):
    """Whether the one is in a function that calls the other's, and that the search proves: it leaves a caller's goals while a callee is not proved."""
    return callee.function in calls[caller.function] and not has_answers(caller)


def edited(run):
    """The files that a run changes, as they then are."""
    by_file = collections.defaultdict(list)
    for answer in run:
        for file, old, new in answer.changes:
            by_file[file].append((old, new, answer.function))
    top = ROOT / "crates" / run[0].crate
    return {file: changed((top / file).read_text(encoding="utf8"), f"{run[0].crate}/{file}", of) for file, of in by_file.items()}


def runs_of(answers, alone, calls=None):
    runs, calls = [], reached(answers[0].crate) if calls is None and answers else calls
    for answer in answers:
        edited([answer])
        place = None if alone else next((run for run in runs if apart(run, answer, calls)), None)
        if place is None:
            runs.append([answer])
        else:
            place.append(answer)
    return runs


class Prover:
    """The kit's checker, called as `rt must-fail` calls it: over a seed, which is what a check of the crate as it stands proved."""

    def __init__(self, after_ci):
        self.after_ci = after_ci

    def crate(self, name):
        """The kit's view of a crate over whose libraries a check can run: those that rt ci has just left, or else those that rt builds."""
        crate = kit.crates()[name]
        if not (self.after_ci and kit.is_from_ci(crate)):
            kit.build_below(crate)
        return crate

    def seed(self, crate):
        """A new folder whose folder `seed` has what a check of the crate as it stands proved, begun with what rt check kept, if it kept something."""
        room = kit.rt().seeded(crate, FLAGS, kit.rt().work_for(crate))
        if room is None:
            raise Fault(f"{crate.name}: it is not proved as it stands")
        return room

    def log_of(self, crate, run, name, room=None):
        """What the checker says of the crate with all wrong answers of the run in it, over the seed if there is one."""
        kept = f"{room}/{name}" if room else None
        try:
            if kept:
                kit.rt().linked(f"{room}/seed", kept)
            said = kit.rt().checked(crate, edited(run), FLAGS, kept)
        finally:
            shutil.rmtree(kept or "", ignore_errors=True)
        log = TARGET / "wrong" / crate.name / f"{name}.log"
        log.parent.mkdir(parents=True, exist_ok=True)
        log.write_text(said.stdout, encoding="utf8")
        if said.returncode != 1 or not re.search(r"^logic=not-proved", said.stdout, re.M):
            raise Fault(f"{crate.name}: run {name} ({'; '.join(a.label for a in run)}): not refused by a proof (exit status {said.returncode})")
        return said.stdout
