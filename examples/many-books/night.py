"""What `run`, `slurm`, `one`, `task` and `table` have in common: the folders of a night and the records of its answers.

For each CASES/MEMBER.csv a night has MEMBER.answer, what was printed, and MEMBER.status, which says how the call ended,
with the checksums of the case, of the program and of the answer, and the words that were asked. Both are written beside
and moved, the status last, so an answer whose checksum its status does not name is none.
"""
import collections
import contextlib
import csv
import fcntl
import hashlib
import io
import os
import pathlib
import re
import shutil
import subprocess
import sys
import tempfile
import typing

HERE = pathlib.Path(__file__).resolve().parent
ROOT = HERE.parent.parent
PROGRAM = ROOT / "crates" / "core_cli" / "out" / "core_cli"
CLOSE = ROOT / "tools" / "close"
# The statuses of calls that came to an answer, which the same call would give again.
ANSWERED = ("0", "1", "3", "4", "5")
PART = ".part-"
SOME_FAILED, NO_WORDS, NOT_TAKEN, UNREAD, UNWRITTEN, MISSING, FAILED, BUSY = 1, 2, 3, 6, 7, 69, 70, 75
NUMBER = re.compile(r"[1-9][0-9]{0,8}")
RULE = re.compile(r"[012]|(?!.*(.).*\1)[CFBLPS]{6}")


class Ended(Exception):
    """An end of a call: its status, and the line that says why."""

    def __init__(self, status, line):
        super().__init__(line)
        self.status = status
        self.line = line


class Told(typing.NamedTuple):
    """What is told of a call: how it ended, of which case, with which words and program, and what came of it.

    `said` is the line of a call that printed no certificate, and `road` the one that brought it.
    """

    status: str
    case: str
    words: str
    program: str
    answer: str
    road: str
    seconds: str
    said: str


def told_text(told):
    text = io.StringIO()
    csv.writer(text, lineterminator="\n").writerows(zip(Told._fields, told))
    return os.fsencode(text.getvalue())


def checksum(*parts):
    return hashlib.sha256(b"".join(parts)).hexdigest()


def shown(name):
    """A name on one line."""
    return name if name.isprintable() else repr(name)


class Night:
    """The folder of a night's answers."""

    def __init__(self, folder):
        self.folder = folder

    def file(self, member, ending):
        return self.folder / (member + ending)

    def told(self, member):
        """What is told of a member's call, or None where there is no status that the answer belongs to."""
        try:
            text = os.fsdecode(self.file(member, ".status").read_bytes())
            told = Told(**dict(csv.reader(io.StringIO(text))))
            is_whole = told.status not in ANSWERED or told.answer == checksum(self.answer(member))
        except (OSError, TypeError, ValueError, csv.Error):
            return None
        return told if is_whole else None

    def answer(self, member):
        return self.file(member, ".answer").read_bytes()

    def write(self, name, data):
        """Writes a file beside and moves it to its place."""
        number, part = tempfile.mkstemp(prefix=PART, dir=self.folder)
        try:
            with open(number, "wb") as file:
                file.write(data)
            os.replace(part, self.folder / name)
        except BaseException:
            with contextlib.suppress(OSError):
                os.unlink(part)
            raise

    def forget(self, member):
        self.file(member, ".status").unlink(missing_ok=True)

    def lock(self):
        """A file that is open, and locked for as long as it or a copy of it is open."""
        file = open(self.folder / "lock", "ab")
        try:
            fcntl.flock(file, fcntl.LOCK_EX | fcntl.LOCK_NB)
        except OSError:
            raise Ended(BUSY, f"another run is at work in {shown(str(self.folder))}") from None
        return file

    def clean(self):
        """Takes away what calls left that were killed."""
        for part in self.folder.glob(PART + "*"):
            part.unlink(missing_ok=True)


class Asked(typing.NamedTuple):
    """The words that each case is asked with, and the program that answers."""

    words: str
    core: pathlib.Path

    def program(self):
        """The checksum of all that answers."""
        is_close = self.words.startswith("close")
        files = [self.core, *([CLOSE, CLOSE.with_name("certify")] if is_close else [])]
        return checksum(*(file.read_bytes() for file in files))

    def command(self):
        """The command, which reads the case from its standard input."""
        word, *more = self.words.split()
        return [CLOSE if word == "close" else self.core, *(["margin"] if word == "margin" else []), "/dev/stdin", *more]


def is_done(told, case, words, program):
    """Whether an answer is of this case, words and program."""
    return told is not None and told.status in ANSWERED and told[1:4] == (case, words, program)


class Folder(typing.NamedTuple):
    """A folder of cases: its members, and the names of what is none of them."""

    folder: pathlib.Path
    members: list
    others: list

    def case(self, member):
        return self.folder / (member + ".csv")


def cases_in(folder):
    """The cases of a folder, in the order of their names."""
    try:
        with os.scandir(folder) as entries:
            found = {entry.name: entry.name[:-4] != "" and entry.name.endswith(".csv") and entry.is_file() for entry in entries}
    except OSError as error:
        raise Ended(UNREAD, f"the folder of cases {shown(str(folder))} cannot be read: {error.strerror}") from None
    members = sorted(name[:-4] for name, is_case in found.items() if is_case)
    others = sorted(name for name, is_case in found.items() if not is_case)
    if not members:
        raise Ended(UNREAD, f"the folder of cases {shown(str(folder))} has no file NAME.csv{not_taken(others)}")
    return Folder(folder, members, others)


def not_taken(others):
    if not others:
        return ""
    more = f" and {len(others) - 3} more" if len(others) > 3 else ""
    return f"; not taken: {', '.join(map(shown, others[:3]))}{more}"


def program():
    """The program that answers."""
    named = os.environ.get("CORE") or str(PROGRAM)
    found = shutil.which(named if os.sep not in named else os.path.abspath(named))
    if found is None:
        raise Ended(MISSING, f"the program core is missing: there is no program {shown(named)} to run; ./core builds it")
    return pathlib.Path(found)


def needed(*programs, package):
    for name in programs:
        if shutil.which(name) is None:
            raise Ended(MISSING, f"the program {name} is missing: install the package {package}")


class Words:
    """The words after the two folders: each with its value, but for `close`, which has none."""

    def __init__(self, words, known, usage):
        self.values = {}
        words = list(words)
        while words:
            word = words.pop(0)
            value = "" if word == "close" else words.pop(0) if words else "?"
            if word not in known or word in self.values or not known[word].fullmatch(value):
                raise Ended(NO_WORDS, usage)
            self.values[word] = value
        if {"close", "rule"} <= set(self.values):
            raise Ended(NO_WORDS, usage)

    def get(self, word):
        return self.values.get(word)

    def asked(self):
        """The words that each case is asked with."""
        if "close" in self.values:
            return "close"
        return f"margin 100000 {self.values['rule']}" if "rule" in self.values else "margin"


class Begun(typing.NamedTuple):
    """A night that is to be run: what there is, what is asked, and the members that have no answer to it."""

    cases: Folder
    night: Night
    asked: Asked
    lock: typing.Any
    members: list


def begin(cases, night, asked):
    """The night over two folders, locked."""
    folder = cases_in(pathlib.Path(cases).resolve())
    night = Night(pathlib.Path(night).resolve())
    if night.folder == folder.folder:
        raise Ended(NO_WORDS, "the night is to have a folder of its own, beside the cases")
    night.folder.mkdir(parents=True, exist_ok=True)
    lock = night.lock()
    check_queue(night)
    night.clean()
    asked = Asked(asked, program())
    return Begun(folder, night, asked, lock, undone(folder, night, asked))


def undone(folder, night, asked):
    """The members without an answer to today's case, words and program."""
    program = asked.program()
    return [member for member in folder.members if not is_done(night.told(member), case_sum(folder, member), asked.words, program)]


def case_sum(folder, member):
    """The checksum of a case, or the word that it cannot be read."""
    try:
        return checksum(folder.case(member).read_bytes())
    except OSError:
        return "unread"


def check_queue(night):
    """Ends the call where a job of Slurm still works on the night."""
    try:
        job = (night.folder / "slurm.job").read_text().strip()
    except FileNotFoundError:
        return
    if shutil.which("squeue") is None:
        raise Ended(MISSING, "the program squeue is missing: a job of Slurm was given this night, and may still work on it")
    words = ["squeue", "--noheader", "--format=%i", "--jobs", job]
    if subprocess.run(words, capture_output=True, check=False).stdout.strip():
        raise Ended(BUSY, f"the job {job} still works on {shown(str(night.folder))}: see squeue")


def summary(begun):
    """The status of a night and a line of how its books ended."""
    ends = collections.Counter()
    left = undone(begun.cases, begun.night, begun.asked)
    for member in set(begun.cases.members) - set(left):
        ends[begun.night.told(member).status] += 1
    kinds = [("0", "closed"), ("1", "cannot be closed"), ("3", "faulty"), ("4", "wide"), ("5", "spent")]
    told = [f"{ends[status]} {kind}" for status, kind in kinds if ends[status]]
    line = ", ".join([*told, *([f"{len(left)} failed" for _ in left[:1]])])
    status = SOME_FAILED if left else NOT_TAKEN if begun.cases.others else 0
    return status, f"{len(begun.cases.members)} books: {line}{not_taken(begun.cases.others)}"


def say(name, line):
    with contextlib.suppress(OSError):
        sys.stderr.write(f"{name}: {line}\n")
        sys.stderr.flush()


def ended(name, called):
    """The status of a call. Each end has a line."""
    try:
        return called()
    except Ended as end:
        say(name, end.line)
        return end.status
    except OSError as error:
        say(name, f"{shown(str(error.filename or 'the output'))}: {error.strerror}")
        return UNWRITTEN
