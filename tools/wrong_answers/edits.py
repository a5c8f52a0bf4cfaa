"""The edits that stand beside the crates, and the crates."""
import collections
import pathlib
import re

ROOT = pathlib.Path(__file__).resolve().parent.parent.parent
FOLDERS = ("must-fail", "wrong")


class Fault(Exception):
    """Something that stands in an edit, a log or the tree, and must not."""


class Misfit(Fault):
    """A proof that does not fit the code with a wrong answer in it, so that nothing is shown."""


class Wrong:
    """One wrong answer: what it is, where it is wrong, and the replacements that make it."""

    def __init__(self, crate, path, label):
        self.crate, self.path, self.label = crate, path, label
        self.function = self.theorem = None
        self.words, self.changes = [], []

    def __str__(self):
        return f"{self.crate}: {self.function or self.theorem}: {self.label}"

    def check(self):
        if (self.function is None) == (self.theorem is None):
            raise Fault(f"{self}: it needs one line 'in: FUNCTION' or 'by: THEOREM'")
        if not self.changes:
            raise Fault(f"{self}: it has no 'old:' and 'new:' pair")
        parts = {file.split("/")[0] for file, _, _ in self.changes if not self.is_own_proof(file)}
        if not parts or not parts <= ({"src"} if self.function else {"src", "specs"}):
            raise Fault(f"{self}: a wrong answer in a function is in src/ alone, and one of a definition in no proof")
        for file in {file for file, _, _ in self.changes if self.is_own_proof(file)}:
            self.check_names(file)
        return self

    def is_own_proof(self, file):
        """Whether a file is one of the two in which the function's proof cites names that Rattle makes of the code."""
        *folders, name = file.split("/")
        own = (self.function or "").split("::")
        if folders[:1] != ["proofs"] or name not in ("Answers.antt", "Invariants.antt"):
            return False
        folders[-1] = folders[-1].removeprefix("+")
        return folders[-len(own):] == own and not folders[-len(own) - 1][:1].isupper()

    def check_names(self, file):
        """A change of the proof only takes names along, each to one other wherever it stands, and none that stands for something else there."""
        text = (ROOT / "crates" / self.crate / file).read_text(encoding="utf8")
        brought = {name.strip() for path, names in USE.findall(text) if not path.endswith(".Goals") for name in names.split(",")}
        named = {}
        for _, old, new in (change for change in self.changes if change[0] == file):
            if MADE.sub("-", old) != MADE.sub("-", new):
                raise Fault(f"{self}: a change of a proof says something else than before: {new}")
            for was, now in zip(MADE.findall(old), MADE.findall(new)):
                if named.setdefault(was, now) != now or was != now and {was, now} & (brought | FIXED):
                    raise Fault(f"{self}: a change of a proof takes `{was}` for something else: {new}")
        moved = {was: now for was, now in named.items() if was != now}
        stands = {name for name in MADE.findall(text) if name not in moved}
        if len(set(moved.values())) < len(moved) or stands & set(moved.values()):
            raise Fault(f"{self}: a change of a proof gives two names as one")

    def is_wide(self):
        """Whether it can break more than one function's proof: a definition, or a constant that stands outside its function."""
        return self.theorem is not None or any(self.outside(file, old) for file, old, _ in self.changes)

    def outside(self, file, old):
        if self.is_own_proof(file):
            return False
        text = (ROOT / "crates" / self.crate / file).read_text(encoding="utf8")
        place = place_of(text, old, self.function)
        return place is None or not any(start <= place < end for start, end in extents(text, self.function))


# A name that Rattle makes of the code: a step of what is known, or parts that are joined by dashes.
MADE = re.compile(r"(?<=\bc\.)[\w+-]+|[\w+]+(?:-[\w+]+)+")
# What every step of every function has.
FIXED = {"args", "requires", "ranges", "type_inv", "decreases", "lifetimes", "well_formed"}
USE = re.compile(r"^use (\S+)\.\{([^}]*)\}", re.M)


def edits(crate, folder):
    files = sorted((ROOT / "crates" / crate / folder).glob("*"))
    for file in files:
        if file.suffix != ".edit":
            raise Fault(f"{file}: it is no edit, and nothing tries it")
    return files


def read_edit(crate, path):
    answers, file, old = [], None, None
    for line in path.read_text(encoding="utf8").splitlines():
        word, _, rest = line.partition(":")
        rest = rest.removeprefix(" ")
        if old is not None and word != "new":
            raise Fault(f"{path}: an 'old:' line has no 'new:' line behind it: {old}")
        if word == "wrong":
            answers.append(Wrong(crate, path, rest.strip()))
            file = None
        elif not answers:
            raise Fault(f"{path}: it begins with a line 'wrong: LABEL'")
        elif word == "in":
            answers[-1].function = rest.strip()
        elif word == "by":
            answers[-1].theorem = rest.strip()
        elif line.startswith("##"):
            pass
        elif line.startswith("#"):
            answers[-1].words.append(line[1:].strip())
        elif word == "file":
            file = rest.strip()
        elif word == "old":
            old = rest
        elif word == "new" and file is not None and old is not None:
            answers[-1].changes.append((file, old, rest))
            old = None
        elif line.strip():
            raise Fault(f"{path}: a line that stands in no order or is of no kind: {line}")
    if old is not None or not answers:
        raise Fault(f"{path}: it ends before its last change, or holds no wrong answer")
    return [answer.check() for answer in answers]


def wrong_answers(crate):
    return [answer for folder in FOLDERS for path in edits(crate, folder) for answer in read_edit(crate, path)]


def crates():
    """The crates of crates.txt in its order, each with what it stands on."""
    listed = {}
    for line in (ROOT / "crates.txt").read_text(encoding="utf8").splitlines():
        name, colon, rest = line.split("#")[0].partition(":")
        if colon:
            # Behind a static library's name stands that word.
            listed[name.split()[0]] = rest.split()
    return listed


def above(names, listed):
    reached = set(names)
    grown = True
    while grown:
        more = {name for name, below in listed.items() if reached & set(below)} - reached
        reached |= more
        grown = bool(more)
    return [name for name in listed if name in reached]


def named(words):
    """Words as the checker makes one name of them."""
    return "".join(word[0].upper() + word[1:] for word in re.findall(r"\w+", words))


def heads(text):
    """The functions of a source text: where each begins, its name, and its first line. A method's
    name has the type's before it, and that of the trait where there is one: `KindTryFromU8::try_from`."""
    of, at, found = "", 0, []
    for line in text.splitlines(keepends=True):
        if head := re.match(r"impl(?:<[^>]*>)? (?:([\w<>, :]+) for )?(\w+)", line):
            of = named(head[2]) + named(re.sub(r"^(?:\w+::)+", "", head[1] or "")) + "::"
        elif line.startswith("}"):
            of = ""
        elif head := re.match(r".*\bfn (\w+)[(<]", line.split("//")[0]):
            found.append((at, of + head[1], line))
        at += len(line)
    return found


def extents(text, function):
    """From where to where a function of this name stands in a source text."""
    starts = [(at, name) for at, name, _ in heads(text)] + [(len(text), "")]
    return [(at, end) for (at, name), (end, _) in zip(starts, starts[1:]) if name == function]


def place_of(text, old, function=None):
    """Where the old text stands: the one place in the text or, where there are several, the one in the function."""
    if not old or old not in text:
        return None
    parts = [(0, len(text)), *extents(text, function)]
    for start, end in parts:
        at = text.find(old, start, end)
        if at >= 0 and text.find(old, at + 1, end) < 0:
            return at
    return None


def functions(crate):
    sources = sorted((ROOT / "crates" / crate / "src").rglob("*.rt"))
    return [(name, line) for source in sources for _, name, line in heads(source.read_text(encoding="utf8"))]


def reached(crate):
    """Of each function of the crate, itself and those that its text names, and so on: at least what it calls."""
    bodies = collections.defaultdict(set)
    for source in sorted((ROOT / "crates" / crate / "src").rglob("*.rt")):
        text = source.read_text(encoding="utf8")
        starts = [(at, name) for at, name, _ in heads(text)] + [(len(text), "")]
        for (at, name), (end, _) in zip(starts, starts[1:]):
            bodies[name].update(re.findall(r"\w+", text[at:end]))
    found = {name: {name} for name in bodies}
    grown = True
    while grown:
        grown = False
        for name in bodies:
            more = {other for other in bodies if any(other.rsplit("::", 1)[-1] in bodies[it] for it in found[name])} - found[name]
            found[name] |= more
            grown = grown or bool(more)
    return found


def has_answers(answer):
    """Whether a file answers goals of the function that the answer is in."""
    *folders, name = answer.function.split("::")
    top = ROOT / "crates" / answer.crate / "proofs"
    return any(path.parent.parts[-len(folders) - 1:-1] == tuple(folders) for part in (name, f"+{name}") for path in top.rglob(f"{part}/Answers.antt"))
