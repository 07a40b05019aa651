"""One input given to the program, or to the clerk, and to the model, and what differs."""
import subprocess
from dataclasses import dataclass
from random import Random
from typing import NamedTuple

from beginning import broken
from cases.certifying import of_journal
from cases.families import Case, carry, certify
from model.audit import audited
from model.carry import carried
from model.certify import certified
from model.files import CheckFile, DayFile, Refused
from model.journal import Wrong, alone, entries_of, judge
from model.making import made_day, trial
from model.report import convoy_report, design_report, report
from model.reroute import rerouted
from model.words import CARRY, CERTIFY, CLERK_USAGE, IN_FORCE, USAGE, asked, clerk_asked

SECONDS = 120


class Programs(NamedTuple):
    """The paths of the program and of the clerk, where there is one."""

    office: str
    clerk: str | None = None

    def of(self, case: Case) -> str | None:
        """The one that a case is for."""
        return self.clerk if case.is_clerks else self.office


@dataclass(frozen=True)
class Ran:
    """How a run ended: its status, what it wrote, and what it told standard error. A byte is a character here."""

    status: int
    written: str
    told: str = ""


def ran(program: str, case: Case) -> Ran:
    """A run of the program."""
    run = subprocess.run([program, *case.words], input=case.data, capture_output=True, timeout=SECONDS)
    return Ran(run.returncode, run.stdout.decode("latin-1"), run.stderr.decode("latin-1"))


def wanted(case: Case) -> Ran | DayFile:
    """What has to come: a run, or, for a day of several actors, the day file, whose journal has to be judged."""
    if case.is_clerks:
        return wanted_of_clerk(case)
    found = asked(case.words)
    if found is None:
        return Ran(2, USAGE)
    try:
        if found.command == "check":
            return Ran(0, report(CheckFile(case.data)))
        if found.command == "design":
            return Ran(0, design_report(CheckFile(case.data)))
        if found.command == "convoy":
            return Ran(0, convoy_report(CheckFile(case.data), found.trucks, found.gap))
        if found.command == "make":
            return Ran(0, made_day(found.seed, found.size))
        if found.command == "trial":
            return Ran(0, trial(found.seed, found.size))
        if found.command == "audit":
            return Ran(*audited(case.data))
        if found.command == "reroute":
            return Ran(*rerouted(case.data))
        day = DayFile(case.data)
    except Refused as refused:
        return Ran(refused.status, refused.line)
    if day.actors > 1:
        return day
    return Ran(0, *alone(day))


def wanted_of_clerk(case: Case) -> Ran:
    """What the clerk has to say."""
    found = clerk_asked(case.words)
    if found is None:
        return Ran(2, CLERK_USAGE)
    if found.command == CARRY:
        return Ran(*carried(case.data, found.is_in_force))
    return Ran(*certified(case.data))


def difference(programs: Programs, case: Case) -> str | None:
    """What differs between the programs and the model on an input, in words, or None."""
    path = programs.of(case)
    if path is None:
        return None
    if case.is_clerks:
        return clerks_difference(path, case)
    want, got = wanted(case), ran(path, case)
    what = judged(want, got) if isinstance(want, DayFile) else unlike(want, got)
    is_journal = case.words == ["day"] and got.status == 0
    return certificates(programs.clerk, case.data, got.written) if is_journal and not what and programs.clerk else what


def clerks_difference(clerk: str, case: Case) -> str | None:
    """What differs between the clerk and the model, or what the model's next day does not keep, or None."""
    want = wanted_of_clerk(case)
    if case.words[:1] == [CARRY] and want.status == 0:
        what = broken(case.data, IN_FORCE in case.words, want.written, want.told)
        if what:
            return f"the model's own next day: {what}"
    return unlike(want, ran(clerk, case))


def certificates(clerk: str, day: bytes, journal: str) -> str | None:
    """What differs on the right journal of a day, which is whole, and on some that lack, have or change something."""
    itself = Ran(0, f"whole {len(entries_of(journal))}\n")
    for number, data in enumerate(of_journal(Random(day), journal, day)):
        if number == 0 and wanted_of_clerk(certify(data)) != itself:
            return f"{CERTIFY}: the model does not say {itself} for a right journal"
        for case in (certify(data), *carry(data)):
            what = clerks_difference(clerk, case)
            if what:
                return f"{' '.join(case.words)}: journal {number} of those that are made of the day's: {what}"
    return None


def unlike(want: Ran, got: Ran) -> str | None:
    """What differs between two runs, in words, or None."""
    if want == got:
        return None
    for name, mine, its in (("status", want.status, got.status), ("standard error", want.told, got.told)):
        if mine != its:
            return f"{name}: the model has {mine!r}, the program {its!r}; its output begins with {got.written[:200]!r}"
    return first_difference(want.written, got.written)


def first_difference(mine: str, its: str) -> str:
    """The first line in which two texts differ."""
    ours, theirs = mine.split("\n"), its.split("\n")
    shorter = min(len(ours), len(theirs))
    at = next((i for i, pair in enumerate(zip(ours, theirs)) if pair[0] != pair[1]), shorter)
    our_line, their_line = (lines[at] if at < len(lines) else "no such line" for lines in (ours, theirs))
    return f"line {at + 1}: the model has {our_line!r}, the program {their_line!r}"


def judged(day: DayFile, got: Ran) -> str | None:
    """What is wrong with a run of several actors, or None."""
    if got.status != 0:
        return f"status {got.status} on a good day file; its output begins with {got.written[:200]!r}"
    try:
        office = judge(day, got.written)
    except Wrong as wrong:
        return str(wrong)
    if got.told != office.notices():
        return f"standard error is told {got.told!r}, and the recalls are {office.notices()!r}"
    return None
