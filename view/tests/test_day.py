"""Tests of view/day that need no browser: a page compared with the lines of its journal, and each bad input."""
import hashlib
import html.parser
import json
import os
import pathlib
import random
import re
import resource
import shutil
import signal
import subprocess
import tempfile
import unittest
from typing import Any

from support import EXAMPLES, PROGRAM, TOP, VIEW, day_examples, journal_of, made_day, names, ran, said_by

from cases import families  # noqa: E402
from model.files import DayFile  # noqa: E402
from model.journal import Actor, text_of  # noqa: E402
from model.office import Office  # noqa: E402
from office_view import reckoning  # noqa: E402
from office_view.command import Fault  # noqa: E402
from office_view.handout import handout  # noqa: E402
from office_view.journal import read_journal  # noqa: E402
from office_view.page import Page  # noqa: E402
from office_view.replay import replay  # noqa: E402

DAY = (EXAMPLES / "template.csv").read_bytes()
JOURNAL = (EXAMPLES / "template.journal").read_bytes()
TRIDEM = (EXAMPLES / "tridem.journal").read_bytes()
ANNUAL_DAY = (EXAMPLES / "annual.csv").read_bytes()
ANNUAL = (EXAMPLES / "annual.journal").read_bytes()
# the postings of the template: where, what, and to which value
POSTINGS = [
    [0, "rating", 1250],
    [1, "rating", 1250],
    [4, "closed", 1],
    [5, "closed", 1],
    [4, "closed", 0],
    [5, "closed", 0],
]
# what the truck of the template has on its bridge, what is carried, the difference, and its part in a hundred
CARRIED = (
    "moment 6,752,109 lb·in, the bridge carries 6,747,000 lb·in (a rating of 1,250 thousandths of HS20-44), "
    "5,109 lb·in too much (0.08 %)"
)
# a program that audits by the second program, as the proved one does
STAND_IN = f"""#!/usr/bin/python3 -B
import sys
sys.path[:0] = [{str(TOP / "compare")!r}]
from model.audit import audited
status, line = audited(sys.stdin.buffer.read())
sys.stdout.write(line)
sys.exit(status if sys.argv[1:] == ["audit"] else 2)
"""


class Shown(html.parser.HTMLParser):
    """The rows of a page by their names, each as the texts of its cells, and all names of elements and attributes."""

    def __init__(self, data: bytes) -> None:
        super().__init__()
        self.rows: dict[str, list[str]] = {}
        self.tags: set[str] = set()
        self.attributes: set[str] = set()
        self.row: list[str] = []
        self.in_cell = False
        self.text = ""
        self.data = ""
        self.in_data = self.in_style = False
        self.feed(data.decode())

    def handle_starttag(self, tag: str, attrs: list[tuple[str, str | None]]) -> None:
        self.tags.add(tag)
        self.attributes |= {name for name, _ in attrs}
        if tag == "tr":
            self.row = self.rows.setdefault(dict(attrs).get("id") or "", [])
        elif tag in ("td", "th"):
            self.row.append("")
            self.in_cell = True
        self.in_data = tag == "script" and dict(attrs).get("id") == "data"
        self.in_style = tag == "style"

    def handle_endtag(self, tag: str) -> None:
        if tag in ("td", "th"):
            self.in_cell = False
        self.in_data = self.in_style = False

    def handle_data(self, text: str) -> None:
        self.text += "" if self.in_style else text
        if self.in_cell:
            self.row[-1] += text
        if self.in_data:
            self.data += text


def page(day: bytes, journal: bytes, *words: str, name: str = "day.csv") -> "Any":
    with tempfile.TemporaryDirectory() as folder:
        files = pathlib.Path(folder, name), pathlib.Path(folder, "day.journal")
        files[0].write_bytes(day)
        files[1].write_bytes(journal)
        return ran("day", *files, *words)


def program(folder: str, name: str, text: str) -> pathlib.Path:
    """A program with this text, in a folder."""
    path = pathlib.Path(folder, name)
    path.write_text(text)
    path.chmod(0o755)
    return path


class Content(unittest.TestCase):
    def compare(self, day: bytes, journal: bytes) -> Shown:
        """Compares a page with what plain patterns find in the journal."""
        told = page(day, journal)
        self.assertEqual((told.returncode, told.stderr), (0, b""))
        shown, said = Shown(told.stdout), said_by(journal.decode())
        segments, trucks = names(day, "segment"), names(day, "truck")
        permits = {int(name[7:]): row for name, row in shown.rows.items() if name.startswith("permit-")}
        self.assertEqual(sorted(permits), sorted(said["permits"]))
        for number, wanted in said["permits"].items():
            row = permits[number]
            self.assertEqual(row[0], f"Permit {number}")
            self.assertEqual(row[3], trucks[wanted["truck"] - 1])
            self.assertEqual(row[4], " to ".join(wanted["days"]))
            routes = [", ".join(segments[segment - 1] for segment in route) for route in wanted["routes"]]
            self.assertIn(f", {'annual, ' if len(routes) > 1 else ''}by {'; or by '.join(routes)} Show", row[5])
            self.assertTrue(row[6].startswith(f"at version {wanted['version']},"))
            if number in said["recalled"]:
                self.assertTrue(row[1].startswith(f"Recalled by posting {said['recalled'][number]}: "), row[1])
            elif number in said["surrendered"]:
                self.assertEqual(row[1], "Surrendered")
            else:
                last = max([said_day for said_day in said["days"]] + [day.decode().split(",")[1]])
                self.assertEqual(row[1], "Expired" if wanted["days"][1] < last else "In force")
        recalls = [row[4] for name, row in shown.rows.items() if name.startswith("posting-")]
        self.assertEqual(
            recalls, [", ".join(f"permit {number}" for number in it) or "nothing" for it in said["postings"]]
        )
        words = {"refused": "Refused", "noroad": "No road", "late": "Too late", "notneeded": "No permit needed"}
        answers = [row[1] for name, row in shown.rows.items() if name.startswith("answer-")]
        self.assertEqual(len(answers), len(said["answers"]))
        for text, word in zip(answers, said["answers"]):
            self.assertTrue(text.startswith(words[word]), text)
        return shown

    def test_each_example(self) -> None:
        for file in day_examples():
            day = file.read_bytes().replace(b"\xef\xbb\xbf", b"").replace(b"\r\n", b"\n").replace(b'"', b"")
            with self.subTest(file.name):
                self.compare(day, file.with_suffix(".journal").read_bytes())

    def test_made_days(self) -> None:
        for seed in range(1, 4):
            day = made_day(seed, 3)
            self.compare(day, journal_of(day))

    def test_says_limits_in_words(self) -> None:
        shown = self.compare(DAY, JOURNAL)
        self.assertEqual(
            shown.rows["answer-2"][1],
            f"Refused: US20-E, bridge MILL-BR-E: {CARRIED} (at version 2)",
        )
        self.assertEqual(
            shown.rows["answer-3"][1],
            "Refused: No way is open to it. Of the roads that lead on from where it can come, the first in the day "
            f"file is US20-E, bridge MILL-BR-E: {CARRIED} (at version 4)",
        )
        self.assertTrue(shown.rows["answer-4"][1].endswith(f"US20-W, bridge MILL-BR-W: {CARRIED} (at version 4)"))
        self.assertEqual(
            shown.rows["permit-1"][1],
            "Recalled by posting 1: bridge MILL-BR-E on US20-E has a rating of 1,250 thousandths of HS20-44; "
            f"{CARRIED}",
        )
        self.assertEqual(shown.rows["permit-3"][1], "Recalled by posting 3: RING-E is closed")
        self.assertEqual(shown.rows["posting-1"][2], "1,300 thousandths of HS20-44")

    def test_an_annual_permit_shows_all_its_routes(self) -> None:
        shown = self.compare(ANNUAL_DAY, ANNUAL)
        self.assertIn("DEPOT to PLANT, annual, by US20, SR7; or by RING, SR9", shown.rows["permit-1"][5])
        self.assertIn("DEPOT to PLANT, by US20, SR7 ", shown.rows["permit-2"][5])
        self.assertIn("annual, by US20, SR7; or by RING, SR9; or by PARKWAY", shown.rows["answer-1"][5])
        self.assertIn("Recalled by posting 1: SR9 allows a height of at most 166 in", shown.rows["permit-1"][1])
        chosen = {it["id"]: it["routes"] for it in json.loads(shown.data)["chosen"]}
        self.assertEqual(chosen["permit-1"], [[0, 1], [2, 3]])
        self.assertEqual(chosen["answer-1"], [[0, 1], [2, 3], [4]])

    def test_journals_of_all_three_formats(self) -> None:
        recall = (EXAMPLES / "recall.csv").read_bytes(), (EXAMPLES / "recall.journal").read_bytes()
        tridem = (EXAMPLES / "tridem.csv").read_bytes(), TRIDEM
        for (day, journal), number in ((recall, 1), (recall, 2), (recall, 3), (tridem, 2), (tridem, 3)):
            self.compare(day, journal.replace(b"journal 3", b"journal %d" % number, 1))

    def test_says_which_files_it_shows_and_that_it_is_not_proved(self) -> None:
        text = Shown(page(DAY, JOURNAL).stdout).text
        for data in (DAY, JOURNAL):
            self.assertIn(hashlib.sha256(data).hexdigest(), text)
        self.assertIn("This page is not proved.", text)
        self.assertIn("Not audited.", text.split("Permits")[0])

    def test_the_data_of_the_drawing_is_the_file(self) -> None:
        data = json.loads(Shown(page(DAY, JOURNAL).stdout).data)
        self.assertEqual(data["nodes"], ["DEPOT", "CREEK", "PLANT"])
        self.assertEqual(data["segments"][2], ["SR7-N", 1, 2])
        self.assertEqual(data["postings"], POSTINGS)
        self.assertEqual(len(data["places"] or data["nodes"]), 3)
        # from DEPOT no further, and from PLANT to CREEK; where nothing lays the roads out there is no drawing to show them on
        self.assertEqual(data["cuts"], [[0], [1, 2]] if data["places"] else [])

    def test_a_large_network_is_not_laid_out(self) -> None:
        day = made_day(1, 20)
        told = page(day, journal_of(day))
        data = json.loads(Shown(told.stdout).data)
        self.assertIsNone(data["places"])
        self.assertEqual(data["why"], "441 places and 1,680 roads are too many to be drawn")

    def test_a_limit_that_no_truck_can_fail_is_no_limit(self) -> None:
        day = DAY.replace(b"post,ann,MILL-BR-E,rating,1250", b"post,ann,SR7-N,height,999")
        day = day.replace(b"post,ann,RING-E,closed,1", b"post,ann,RING-E,gross,2000000")
        day = day.replace(b"post,ann,RING-E,closed,0", b"post,ann,MILL-BR-E,rating,100000")
        shown = Shown(page(day, journal_of(day)).stdout)
        self.assertEqual(shown.rows["posting-1"][1:3], ["SR7-N has no limit of height", "172 in"])
        self.assertEqual(shown.rows["posting-3"][1:3], ["RING-E has no limit of gross weight", "150,000 lb"])
        self.assertEqual(shown.rows["posting-5"][1], "bridge MILL-BR-E on US20-E has no limit")
        self.assertNotIn("999", "".join(text for row in shown.rows.values() for text in row))

    def test_no_road_says_what_any_walk_reaches(self) -> None:
        day, journal = ((EXAMPLES / f"no-road{ending}").read_bytes() for ending in (".csv", ".journal"))
        shown = Shown(page(day, journal).stdout)
        reached = {it["id"]: it.get("reach", "") for it in json.loads(shown.data)["chosen"]}
        number = next(name for name, row in shown.rows.items() if "No road: No road leads from" in "".join(row))
        self.assertTrue(reached[number].startswith("Any walk from there, over open or closed roads, reaches"))
        self.assertNotIn("the truck can reach 2", shown.text)

    def test_each_number_has_its_unit(self) -> None:
        units = r"(?! (?:in|lb|lb·in|ft|thousandths)\b| %)"
        number = re.compile(r"(?<![\w.,-])[0-9][0-9,]*(?:\.[0-9]+)?(?![\w,-]|\.[0-9])" + units)
        words = re.compile(r"(?:[Pp]osting|version|permit|Permit|Answer|axles?|to|rating of) $")
        for name in ("template", "tridem", "annual", "bridge"):
            day, journal = ((EXAMPLES / f"{name}{ending}").read_bytes() for ending in (".csv", ".journal"))
            for row in Shown(page(day, journal).stdout).rows.values():
                for text in row:
                    text = re.sub(r"[0-9]{4}-[0-9]{2}-[0-9]{2}", "", text)
                    bare = [it[0] for it in number.finditer(text) if not words.search(text[: it.start()])]
                    self.assertEqual(bare, [], text)


class Hostile(unittest.TestCase):
    def test_names_of_all_letters_that_a_name_may_have(self) -> None:
        made = {
            b"DEPOT": b"__proto__",
            b"CREEK": b"constructor",
            b"PLANT": b"-",
            b"ACME": b"0",
            b"LOWBOY": b"toString",
            b"ann": b"abcdefghijklm_-9",
            b"MILL-BR-E": b"ABCDEFGHIJKLMNOP",
            b"US20-E": b"hasOwnProperty",
            b"US20-W": b"QRSTUVWXYZ",
            b"RING-E": b"nopqrstuvwxyz",
            b"VAN": b"012345678",
        }
        day = DAY
        for name, hostile in made.items():
            day, found = re.subn(rb"(?<![A-Za-z0-9_-])" + name + rb"(?![A-Za-z0-9_-])", hostile, day)
            self.assertGreater(found, 0, name)
        shown = Shown(page(day, JOURNAL).stdout)
        self.assertEqual(shown.rows["permit-1"][2:4], ["0", "toString"])
        self.assertIn("__proto__ to -, by hasOwnProperty", shown.rows["permit-1"][5])
        self.assertIn("bridge ABCDEFGHIJKLMNOP on hasOwnProperty has", shown.rows["permit-1"][1])

    def test_the_name_of_a_file_is_text(self) -> None:
        name = "<img src=x onerror=alert(1)>&\"'.csv"
        told = page(DAY, JOURNAL, name=name)
        shown = Shown(told.stdout)
        self.assertNotIn("img", shown.tags)
        self.assertIn(name, shown.text)
        self.assertNotIn("onerror", shown.attributes)

    def test_no_address_and_no_handler_stands_in_the_markup(self) -> None:
        told = page(DAY, JOURNAL)
        shown = Shown(told.stdout)
        self.assertFalse({"src", "action", "style"} & shown.attributes)
        self.assertFalse([name for name in shown.attributes if name.startswith("on")])
        self.assertFalse({"iframe", "object", "embed", "img", "base"} & shown.tags)
        self.assertEqual(set(re.findall(rb"https?://[^\"' ]+", told.stdout)), {b"http://www.w3.org/2000/svg"})
        self.assertIn(b"default-src &#x27;none&#x27;", told.stdout)

    def test_a_hostile_day_file_is_refused(self) -> None:
        told = page(DAY.replace(b"ACME", b"<script>alert(1)</script>"), JOURNAL)
        self.assertEqual((told.returncode, told.stdout), (5, b""))
        self.assertIn(b"refused: record 17 field 3", told.stderr)


class BadInput(unittest.TestCase):
    def refuses(self, day: bytes, journal: bytes, status: int, words: str) -> None:
        told = page(day, journal)
        self.assertEqual((told.returncode, told.stdout), (status, b""), words)
        self.assertEqual(told.stderr.count(b"\n"), 1, told.stderr)
        self.assertIn(words, told.stderr.decode())

    def test_a_journal_of_another_day_file(self) -> None:
        other = (EXAMPLES / "recall.journal").read_bytes()
        self.refuses(DAY, other, 5, "line 3, the application is not the actor's next command")
        self.refuses((EXAMPLES / "recall.csv").read_bytes(), JOURNAL, 5, "is not of")
        self.refuses(
            DAY.replace(b"MILL-BR-E,rating,1250", b"MILL-BR-E,rating,1249"),
            JOURNAL,
            5,
            "line 8, the posting is not the actor's next command",
        )
        self.refuses(
            DAY.replace(b"surrender,ann,4,,,,,\n", b""), JOURNAL, 5, "line 28, the actor's next command is show"
        )
        self.refuses(
            DAY.replace(b"end,", b"show,ann,4,,,,,\nend,"), JOURNAL, 5, "actor 1 has commands that are not there"
        )

    def test_a_journal_that_does_not_hang_together(self) -> None:
        def changed(old: bytes, new: bytes) -> bytes:
            self.assertIn(old, JOURNAL)
            return JOURNAL.replace(old, new, 1)

        self.refuses(DAY, changed(b"= issued 2 at 0", b"= issued 3 at 0"), 5, "the next permit is 2")
        self.refuses(DAY, changed(b"posted 1 recalled 1", b"posted 2 recalled 1"), 5, "the next posting is 1")
        self.refuses(DAY, changed(b"posted 1 recalled 1", b"posted 1 recalled 3"), 5, "there is no permit 3")
        self.refuses(DAY, changed(b"posted 2 recalled 2", b"posted 2 recalled 1"), 5, "permit 1 is not in force")
        self.refuses(DAY, changed(b"seen 0 recalled 1", b"seen 0 inforce"), 5, "line 10, permit 1 stands otherwise")
        self.refuses(DAY, changed(b"= surrendered", b"= notyours"), 5, "permit 4 is in force")
        self.refuses(DAY, changed(b"= late 2026-03-04", b"= late 2026-03-03"), 5, "the office's day is 2026-03-04")
        self.refuses(DAY, changed(b"1 snapshot = at 2", b"1 snapshot = at 0"), 5, "the roads stand at version 2")
        self.refuses(
            DAY,
            changed(b"route 1,3 = issued 1 at 0 route 1,3", b"route 3,1 = issued 1 at 0 route 3,1"),
            5,
            "the route is no walk",
        )
        self.refuses(
            DAY,
            changed(b"route 1,3 = issued 1 at 0 route 1,3", b"route 1,3/1,3 = issued 1 at 0 route 1,3/1,3"),
            5,
            "no route is asked for, and the permit has several",
        )

    def test_annual_permits_that_do_not_hang_together(self) -> None:
        def changed(old: bytes, new: bytes) -> bytes:
            self.assertIn(old, ANNUAL)
            return ANNUAL.replace(old, new, 1)

        issued = b"route 1,2/3,4 = issued 1 at 0 route 1,2/3,4"
        for routes in (b"1,2", b"3,4/1,2", b"1,2/3,4/3,4", b"1,2/3,1", b"1,2/-", b"1,2/9"):
            forged = changed(issued, b"route " + routes + b" = issued 1 at 0 route " + routes)
            self.refuses(ANNUAL_DAY, forged, 5, "the routes that were found are not those that are asked for")
        self.refuses(
            ANNUAL_DAY,
            changed(b"posted 1 recalled 1", b"posted 1 recalled 2"),
            5,
            "permit 2 does not use what is posted on",
        )

    def test_what_is_no_journal(self) -> None:
        self.refuses(DAY, b"refused: record 2 kind\n", 5, "the line of a refusal: refused: record 2 kind")
        first = "line 1 is none of permit-journal 1, permit-journal 2 and permit-journal 3"
        self.refuses(DAY, DAY, 5, f"is no journal: {first}")
        self.refuses(b"nothing", JOURNAL, 5, "is no day file (refused: record 1 fields)")

    def test_a_journal_of_more_lines_than_a_day_writes(self) -> None:
        # 17 entries of each of 4,096 commands, the first line and the last
        for lines, words in ((69634, "line 2 is of no form"), (69635, "more than the 69,634 lines")):
            with self.assertRaises(Fault) as caught:
                read_journal(b"permit-journal 3\n" + b"x\n" * (lines - 1), "J")
            self.assertIn(words, str(caught.exception))

    def test_names_the_first_bad_line(self) -> None:
        lines = JOURNAL.split(b"\n")
        cases = [
            (b"", 1),
            (b"permit-journal 3", 1),
            (b"permit-journal 4\nend 0\n", 1),
            (b"permit-journal 03\nend 0\n", 1),
            (TRIDEM.replace(b"journal 3", b"journal 1", 1), 4),
            (TRIDEM.replace(b"tridem 2-4", b"tridem 2", 1), 6),
            (ANNUAL.replace(b"journal 3", b"journal 2", 1), 3),
            (ANNUAL.replace(b"asked 1,2/3,4 ", b"asked 1,2//3,4 ", 1), 3),
            (ANNUAL.replace(b"asked 1,2/3,4 ", b"asked 1,2/3,4/ ", 1), 3),
            (ANNUAL.replace(b"asked 1,2/3,4 ", b"asked 1,2/none ", 1), 3),
            (ANNUAL.replace(b"asked 1,2/3,4 ", b"asked " + b"1/" * 8 + b"1 ", 1), 3),
            (ANNUAL.replace(b"at 0 route 1,2/3,4", b"at 0 route 1,2|3,4", 1), 3),
            (ANNUAL.replace(b"fails 5", b"fails 5/5", 1), 5),
            (b"permit-journal 3\nend 1\n", 2),
            (b"permit-journal 3\nend 0\nx", 3),
            (b"permit-journal 3\nend 0\n\n", 3),
            (b"permit-journal 3\nend 0", 2),
            (JOURNAL[:-1], 30),
            (b"\n".join(lines[:5]) + b"\n", 6),
            (JOURNAL.replace(b" = at 0", b"  = at 0", 1), 2),
            (JOURNAL.replace(b"issued 1", b"issued 01", 1), 5),
            (JOURNAL.replace(b"54016875/8", b"108033750/16", 1), 12),
            (JOURNAL.replace(b"recalled 1\n", b"recalled 1\r\n", 1), 8),
            (JOURNAL.replace(b"2026-03-04", b"2026-02-30", 1), 25),
            (JOURNAL.replace(b"truck 2", b"truck 0", 1), 3),
            (JOURNAL.replace(b"truck 2", b"truck 65537", 1), 3),
            (JOURNAL.replace(b"seen 0", b"seen 4294967296", 1), 3),
            (JOURNAL.replace(b"end 28", b"end 29"), 30),
            (JOURNAL.replace(b"end 28", b"end 028"), 30),
            (JOURNAL.replace(b"54016875/8", b"9" * 5000 + b"/8", 1), 12),
            (JOURNAL.replace(b"seen 0", b"seen " + b"9" * 5000, 1), 3),
            (JOURNAL.replace(b"\n1 snap", b"\n\xff snap", 1), 2),
        ]
        for data, line in cases:
            with self.assertRaises(Fault) as caught:
                read_journal(data, "J")
            self.assertIn(f"line {line} ", str(caught.exception), data[-60:])

    def test_without_graphviz_there_is_a_page_that_says_so(self) -> None:
        with tempfile.TemporaryDirectory() as folder:
            pathlib.Path(folder, "day.csv").write_bytes(DAY)
            told = ran("day", f"{folder}/day.csv", "-", data=JOURNAL, env={"PATH": folder})
        self.assertEqual((told.returncode, told.stderr), (0, b""))
        shown = Shown(told.stdout)
        self.assertEqual(sum(name.startswith("permit-") for name in shown.rows), 4)
        why = "neato of the Debian package graphviz is not installed where this page was made"
        self.assertEqual(json.loads(shown.data)["why"], why)

    def test_a_layout_that_fails_is_said(self) -> None:
        with tempfile.TemporaryDirectory() as folder:
            program(folder, "neato", "#!/bin/sh\nexit 3\n")
            pathlib.Path(folder, "day.csv").write_bytes(DAY)
            told = ran("day", f"{folder}/day.csv", "-", data=JOURNAL, env={"PATH": f"{folder}:/bin:/usr/bin"})
        self.assertIn("neato of graphviz fails", json.loads(Shown(told.stdout).data)["why"])

    def test_files_that_are_not_there(self) -> None:
        self.assertEqual(ran("day", "/no/day", "/no/journal").returncode, 3)
        self.assertEqual(ran("day", EXAMPLES / "template.csv").returncode, 2)
        self.assertEqual(ran("day", "-", "-").returncode, 2)
        told = page(DAY, JOURNAL, "--output", "/no/such/folder/page.html")
        self.assertEqual(told.returncode, 4)


class Forged(unittest.TestCase):
    """Journals that no office writes: each hangs together as far as numbers, versions and days go."""

    def refuses(self, day: bytes, journal: bytes, words: str) -> None:
        with self.assertRaises(Fault) as caught:
            replay(DayFile(day), read_journal(journal, "J"), "D", "J")
        self.assertEqual(caught.exception.status, 5)
        self.assertIn(words, str(caught.exception))

    def test_a_recall_that_is_taken_out(self) -> None:
        forged = JOURNAL.replace(b"posted 1 recalled 1", b"posted 1 recalled -")
        forged = forged.replace(b"at 0 seen 0 recalled 1", b"at 0 seen 0 inforce")
        moment = "the moment on bridge MILL-BR-{} at a rating of 1250"
        why = "line 8, permit 1 is not recalled, and fails on US20-E: " + moment.format("E")
        self.refuses(DAY, forged, why)
        told = page(DAY, forged)
        self.assertEqual((told.returncode, told.stdout), (5, b""))
        self.assertIn(why, told.stderr.decode())
        forged = JOURNAL.replace(b"posted 2 recalled 2", b"posted 2 recalled -")
        self.refuses(DAY, forged, "permit 2 is not recalled, and fails on US20-W: " + moment.format("W"))
        forged = JOURNAL.replace(b"posted 3 recalled 3", b"posted 3 recalled -")
        self.refuses(DAY, forged, "permit 3 is not recalled, and fails on RING-E: closed")

    def test_a_recall_too_many(self) -> None:
        day = DAY.replace(b"rating,1250", b"rating,1260")
        forged = JOURNAL.replace(b"rating 1250", b"rating 1260")
        self.refuses(day, forged, "line 8, permit 1 is recalled, and its truck keeps every limit of US20-E")

    def test_a_rating_that_is_not_posted(self) -> None:
        forged = JOURNAL.replace(b"hs20 5397600/1 rating 1250", b"hs20 5397600/1 rating 1200", 1)
        self.refuses(DAY, forged, "line 12, bridge MILL-BR-E has a rating of 1250 by then")

    def test_numbers_of_a_refusal_that_are_not_so(self) -> None:
        for old, new in ((b"54016875/8", b"54016877/8"), (b"5397600/1", b"5397601/1"), (b"1 moment", b"1 shear")):
            why = "line 12, what fails on US20-E is the moment on bridge MILL-BR-E"
            self.refuses(DAY, JOURNAL.replace(old, new, 1), why)
        limit = b"segment 1 span 1 moment 54016875/8 hs20 5397600/1 rating 1250"
        for other, why in (
            (b"segment 1 closed", "what fails on US20-E is the moment"),
            (b"segment 1 height 168 over 160", "what fails on US20-E is the moment"),
            (b"segment 3 height 168 over 172", "the answer is on another segment than what fails"),
            (b"segment 1 span 2 moment 54016875/8 hs20 5397600/1 rating 1250", "there is no such segment or span"),
        ):
            self.refuses(DAY, JOURNAL.replace(b"refused 2 " + limit, b"refused 2 " + other, 1), why)
        found = b"fails 1 = refused 2 " + limit
        forged = JOURNAL.replace(found, b"fails 3 = refused 2 segment 3 height 168 over 172", 1)
        self.refuses(DAY, forged, "what fails on SR7-N is nothing")

    def test_a_permit_over_a_closed_road(self) -> None:
        forged = re.sub(b" cut 1 = refused 4 .*", b" route 5 = issued 4 at 4 route 5", JOURNAL)
        self.refuses(DAY, forged, "line 18, its truck may not pass RING-E: closed")

    def test_a_refusal_of_a_truck_that_is_legal_and_a_legal_one_that_is_not(self) -> None:
        forged = JOURNAL.replace(b"seen 0 none = notneeded", b"seen 0 route 5 = issued 1 at 0 route 5", 1)
        self.refuses(DAY, forged, "line 3, the truck is legal and needs no permit")
        forged = JOURNAL.replace(b"seen 0 route 1,3 = issued 1 at 0 route 1,3", b"seen 0 none = notneeded", 1)
        self.refuses(DAY, forged, "line 5, the truck is not legal and needs a permit")

    def test_roads_that_do_not_stand_in_the_way(self) -> None:
        limit = b"segment 1 span 1 moment 54016875/8 hs20 5397600/1 rating 1250"
        forged = JOURNAL.replace(b"cut 1 = refused 4 " + limit, b"cut 1 = refused 4 segment 5 closed", 1)
        # which road is the first one is not asked
        replay(DayFile(DAY), read_journal(forged, "J"), "D", "J")
        forged = JOURNAL.replace(b"cut 1 = refused 4 " + limit, b"cut 1 = refused 4 segment 9 closed", 1)
        self.refuses(DAY, forged, "there is no such segment or span")
        forged = JOURNAL.replace(b"cut 1 = refused 4 " + limit, b"cut 1,2 = refused 4 " + limit, 1)
        self.refuses(DAY, forged, "US20-E does not lead out of what the truck reaches")
        forged = JOURNAL.replace(b"cut 1 = refused 4 " + limit, b"cut 1,2,3 = refused 4 " + limit, 1)
        self.refuses(DAY, forged, "the nodes are not those of a cut")
        forged = JOURNAL.replace(b"cut 1 = refused 4 " + limit, b"cut 1 = noroad", 1)
        self.refuses(DAY, forged, "there are roads that lead there")
        day, journal = ((EXAMPLES / f"no-road{ending}").read_bytes() for ending in (".csv", ".journal"))
        self.refuses(day, journal.replace(b"cut 1,3 = noroad", b"cut 1 = noroad", 1), "not those that any walk reaches")

    def test_what_was_found_is_not_what_is_asked_for_or_answered(self) -> None:
        for old, new, why in (
            (b"seen 0 none = notneeded", b"seen 0 route 5 = notneeded", "needs no permit"),
            (b"seen 0 route 1,3 = issued", b"seen 0 route 5 = issued", "the routes are not those that were found"),
            (b"seen 0 route 1,3 = issued", b"seen 0 route 2,3 = issued", "the route is no walk"),
            (b"seen 0 route 1,3 = issued", b"seen 0 route 1,13 = issued", "there is no such segment"),
            (b"seen 0 route 1,3 = issued", b"seen 0 cut 1 = issued", "issued is no answer where cut was found"),
            (b"fails 1 = refused", b"fails 3 = refused", "the answer is on another segment than what fails"),
            (b"fails 1 = refused", b"fails 5 = refused", "what fails is on no route that is asked for"),
            (b"fails 1 = refused", b"cut 1 = refused", "nodes are found, and a route is asked for"),
            (b"cut 1 = refused", b"fails 1 = refused", "what fails is on no route that is asked for"),
            (b"route 5 = late", b"route 4 = late", "the route is no walk"),
        ):
            self.assertIn(old, JOURNAL)
            self.refuses(DAY, JOURNAL.replace(old, new, 1), why)

    def test_a_look_that_shows_another_permit(self) -> None:
        why = "line 10, the show is not the actor's next command"
        self.refuses(DAY, JOURNAL.replace(b"show 1 = shown 1", b"show 2 = shown 1"), why)
        forged = JOURNAL.replace(b"show 1 = shown 1", b"show 1 = shown 2")
        self.refuses(DAY, forged, "line 10, permit 1 says something else")

    def test_a_line_that_is_doubled_left_out_or_exchanged_with_the_next(self) -> None:
        first, *lines = JOURNAL.decode().splitlines()
        lines.pop()
        for at in range(len(lines)):
            here, behind = lines[at:at + 1], lines[at + 1:]
            for more in ([*here, *here, *behind], behind, [*behind[:1], *here, *behind[1:]] if behind else behind):
                forged = "\n".join([first, *lines[:at], *more])
                self.refuses(DAY, f"{forged}\nend {at + len(more)}\n".encode(), "J is not of D: line ")

    def test_what_is_too_much_to_work_out_is_left_out_and_said(self) -> None:
        whole, reckoning.MOST_WORK = reckoning.MOST_WORK, 10
        try:
            made = replay(DayFile(DAY), read_journal(JOURNAL, "J"), "D", "J")
        finally:
            reckoning.MOST_WORK = whole
        self.assertGreater(made.reckoning.left_out, 0)
        said = f"this was left out {made.reckoning.left_out} times."
        for text in (Page(made, (None, ""), [], None).markup(), handout(made, [], None, None, 1)):
            self.assertIn(said, text)
        self.assertEqual([permit.status for permit in made.permits][:2], ["recalled", "recalled"])
        self.assertEqual(replay(DayFile(DAY), read_journal(JOURNAL, "J"), "D", "J").reckoning.left_out, 0)


class Turns(unittest.TestCase):
    """Journals of several actors that take turns in any way: what is worked out agrees with each."""

    def test_legal_journals_have_pages(self) -> None:
        makers = (families.crowded_day, families.annual_crowd, families.good_day, families.grid_day)
        outdated = 0
        for seed in range(40):
            rng = random.Random(seed)
            file = DayFile(makers[seed % 4](rng).data)
            journal = taken_in_turns(file, rng)
            outdated += journal.count(" = outdated ")
            made = replay(file, read_journal(journal.encode(), "J"), "D", "J")
            self.assertEqual(len(made.permits), journal.count(" = issued "), seed)
            self.assertEqual(made.reckoning.left_out, 0)
            for permit in made.permits[:2]:
                self.assertIn(f"Permit {permit.number}", handout(made, [], None, None, permit.number))
        self.assertGreater(outdated, 10)


def taken_in_turns(file: DayFile, rng: random.Random) -> str:
    """The journal of a day whose actors take turns at random, by the second program."""
    office, entries = Office(file), []
    actors = [Actor(number, [it for it in file.commands if it.actor == number]) for number in range(file.actors)]
    while live := [actor for actor in actors if not actor.is_done()]:
        actor = rng.choice(live)
        call = actor.call(office)
        entries.append(f"{actor.number + 1} {call.text} = {call.reply()}")
    return text_of(entries)


class Audits(unittest.TestCase):
    """A program that is named audits the journal before there is a page."""

    def setUp(self) -> None:
        self.folder = tempfile.TemporaryDirectory()
        self.addCleanup(self.folder.cleanup)
        self.program = PROGRAM or str(program(self.folder.name, "stand-in", STAND_IN))

    def test_a_legal_journal_says_by_which_program_in_the_head(self) -> None:
        told = page(DAY, JOURNAL, "--program", self.program)
        self.assertEqual((told.returncode, told.stderr), (0, b""))
        head = Shown(told.stdout).text.split("Permits")[0]
        self.assertIn("Audited: legal.", head)
        self.assertIn(hashlib.sha256(pathlib.Path(self.program).read_bytes()).hexdigest(), head)
        self.assertIn("28 lines of it", head)
        self.assertEqual("This file is a script" in head, not PROGRAM)

    def test_a_forged_journal_is_no_page(self) -> None:
        forged = JOURNAL.replace(b"posted 1 recalled 1", b"posted 1 recalled -")
        forged = forged.replace(b"at 0 seen 0 recalled 1", b"at 0 seen 0 inforce")
        told = page(DAY, forged, "--program", self.program)
        self.assertEqual((told.returncode, told.stdout), (9, b""))
        self.assertIn(
            "not legal: entry 7, line 8 of it: 1 post span 1 rating 1250 = posted 1 recalled - (", told.stderr.decode()
        )

    def test_what_the_page_does_not_ask_the_program_does(self) -> None:
        limit = b"segment 1 span 1 moment 54016875/8 hs20 5397600/1 rating 1250"
        forged = JOURNAL.replace(b"cut 1 = refused 4 " + limit, b"cut 1 = refused 4 segment 5 closed", 1)
        told = page(DAY, forged, "--program", self.program)
        self.assertEqual((told.returncode, told.stdout), (9, b""))
        self.assertIn("not legal: entry 17, line 18 of it: 1 submit", told.stderr.decode())

    def test_programs_that_say_nothing_of_an_audit(self) -> None:
        for name, text, status, words in (
            ("mute", "#!/bin/sh\ncat >/dev/null\n", 5, "status 0, no line"),
            ("other", "#!/bin/sh\ncat >/dev/null; echo legal 27\n", 5, "status 0, legal 27"),
            ("killed", "#!/bin/sh\nkill -9 $$\n", 5, "status -9, no line"),
            ("failing", "#!/bin/sh\ncat >/dev/null; echo legal 28; exit 7\n", 5, "status 7, legal 28"),
            ("endless", "#!/bin/sh\nyes legal 28\n", 5, "legal 28"),
            ("rude", "#!/bin/sh\ncat >/dev/null; printf '\\033[2J'\n", 5, "status 0, \\x1b[2J"),
            ("data", "no program", 2, "cannot be run: Exec format error"),
        ):
            told = page(DAY, JOURNAL, "--program", str(program(self.folder.name, name, text)))
            self.assertEqual((told.returncode, told.stdout), (status, b""), name)
            self.assertIn(words, told.stderr.decode(), name)
        self.assertEqual(page(DAY, JOURNAL, "--program", "/no/program").returncode, 3)

    def test_the_name_of_a_program_is_shown_escaped(self) -> None:
        path = pathlib.Path(self.folder.name, "a\x1b[2Jb<i>")
        shutil.copy(self.program, path)
        told = page(DAY, JOURNAL, "--program", str(path))
        self.assertNotIn(b"\x1b", told.stdout)
        self.assertIn(r"The program a\x1b[2Jb<i> (sha256", Shown(told.stdout).text)

    def test_a_page_of_a_permit_says_it_too(self) -> None:
        told = page(DAY, JOURNAL, "--permit", "3", "--program", self.program)
        self.assertIn("Audited: legal.", Shown(told.stdout).text)
        self.assertIn("Not audited.", Shown(page(DAY, JOURNAL, "--permit", "3").stdout).text)


class Handouts(unittest.TestCase):
    """Pages of one carrier and of one permit."""

    def shown(self, *words: str, day: bytes = DAY, journal: bytes = JOURNAL) -> str:
        told = page(day, journal, *words)
        self.assertEqual((told.returncode, told.stderr), (0, b""))
        self.assertFalse({"script", "form", "img"} & Shown(told.stdout).tags)
        return re.sub(r"\s+", " ", Shown(told.stdout).text)

    def test_a_recalled_permit(self) -> None:
        text = self.shown("--permit", "1")
        for words in (
            "Permit 1: ACME LOWBOY",
            "How it standsRecalled. So it stands on 2026-03-04, the office's day",
            "By posting 1: bridge MILL-BR-E on US20-E has a rating of 1,250 thousandths of HS20-44. "
            f"M{CARRIED[1:]}",
            "Days2026-03-02 to 2026-03-06",
            "Do not drive on this permit. Ask again without US20-E, or with no route; or ask with less weight",
            "2 roads, 42,240 ft, 8.0 miles; limits and ratings as posted at version 1",
            "1. US20-EDEPOT to CREEK26,400 ftno limitMILL-BR-E, 480 in, rating 1,250 thousandths of HS20-44",
            "end shear of LOWBOY: 62,775 lb, carried 69,000 lb, 6,225 lb to spare (9.02 %)",
            "2. SR7-NCREEK to PLANT15,840 ftheight 172 in",
            "LOWBOY168 in120 in780 in72,000 lb1: 12,000 lb at 0 in; 2: 30,000 lb at 180 in (180 in behind the one ",
            "2 recalled, 3 refused, 1 surrendered, 1 too late; the last 4 of them are",
            "Permit 4, surrendered: DEPOT to PLANT",
        ):
            self.assertIn(words, text)

    def test_a_permit_in_force_and_the_other_ones(self) -> None:
        self.assertIn("It was given back.", self.shown("--permit", "4"))
        held = DAY.replace(b"surrender,ann,4,,,,,\n", b"")
        self.assertNotEqual(held, DAY)
        text = self.shown("--permit", "4", day=held, journal=journal_of(held))
        self.assertIn("Drive from 2026-03-03 to 2026-03-06, with this truck", text)
        expired = held.replace(b"setday,ann,2026-03-04", b"setday,ann,2026-03-09")
        text = self.shown("--permit", "4", day=expired, journal=journal_of(expired))
        self.assertIn("Its last day is before the office's day, 2026-03-09.", text)

    def test_an_annual_permit_has_each_route(self) -> None:
        text = self.shown("--permit", "1", day=ANNUAL_DAY, journal=ANNUAL)
        self.assertIn("Route 1 of 2", text)
        self.assertIn("Route 2 of 2", text)
        self.assertIn("bring the height down by at least 2 in", text)

    def test_a_carrier_has_its_own_answers_alone(self) -> None:
        acme, bolt = self.shown("--carrier", "ACME"), self.shown("--carrier", "BOLT")
        self.assertIn("4 permits, 0 in force on 2026-03-04; 4 other answers.", acme)
        self.assertIn("0 permits, 0 in force on 2026-03-04; 1 other answer.", bolt)
        self.assertIn("No permit needed", bolt)
        for words in ("BOLT", "VAN", "160 in", "Answer 1"):
            self.assertNotIn(words, acme)
        for words in ("ACME", "LOWBOY", "168 in", "Permit", "MILL-BR", "US20"):
            self.assertNotIn(words, bolt.replace("No permit", "").replace("Permit office", ""))

    def test_nothing_of_anybody_else_on_made_days(self) -> None:
        day = made_day(3, 4)
        journal = journal_of(day)
        for word, others in (("c0", ("t1", "t3")), ("c1", ("t2", "t4"))):
            told = page(day, journal, "--carrier", word)
            for other in others:
                self.assertNotRegex(told.stdout.decode(), rf"\b{other}\b")

    def test_nobody(self) -> None:
        for words, why in (
            (("--permit", "5"), "there is no permit 5: the journal has 4 permits"),
            (("--permit", "0"), "there is no permit 0"),
            (("--permit", "x"), "invalid int value"),
            (("--carrier", "acme"), "no carrier acme has an answer in this journal: capitals count"),
            (("--carrier", "\x1b[2J"), "no carrier \\x1b[2J has"),
            (("--carrier", "ACME", "--permit", "1"), "not allowed with"),
        ):
            told = page(DAY, JOURNAL, *words)
            self.assertEqual((told.returncode, told.stdout), (2, b""), words)
            self.assertIn(why, told.stderr.decode())


class Outputs(unittest.TestCase):
    """Outputs are whole or not there, and never stand where an input was."""

    def setUp(self) -> None:
        folder = tempfile.TemporaryDirectory()
        self.addCleanup(folder.cleanup)
        self.folder = pathlib.Path(folder.name)
        self.day, self.journal, self.page = (self.folder / name for name in ("day.csv", "day.journal", "page.html"))
        self.day.write_bytes(DAY)
        self.journal.write_bytes(JOURNAL)

    def test_never_onto_an_input(self) -> None:
        os.link(self.day, self.folder / "other.csv")
        os.symlink("day.journal", self.folder / "other.journal")
        for output in ("day.csv", "day.journal", "other.csv", "other.journal", "./day.csv"):
            told = ran("day", self.day, self.journal, "-o", self.folder / output)
            self.assertEqual((told.returncode, told.stdout), (2, b""), output)
            self.assertIn(b"is the input", told.stderr)
        with open(self.journal, "rb") as file:
            words = [str(VIEW / "day"), str(self.day), "-", "-o", str(self.journal)]
            self.assertEqual(subprocess.run(words, stdin=file, capture_output=True).returncode, 2)
        self.assertEqual((self.day.read_bytes(), self.journal.read_bytes()), (DAY, JOURNAL))

    def test_what_stands_there_is_kept_or_replaced_whole(self) -> None:
        self.page.write_bytes(b"old")
        self.page.chmod(0o640)
        other = self.folder / "other.html"
        os.symlink("page.html", other)
        self.assertEqual(ran("day", self.day, self.day, "-o", self.page).returncode, 5)
        self.assertEqual(self.page.read_bytes(), b"old")
        self.assertEqual(ran("day", self.day, self.journal, "-o", other).returncode, 0)
        self.assertTrue(other.is_symlink())
        self.assertTrue(self.page.read_bytes().endswith(b"</html>\n"))
        self.assertEqual(self.page.stat().st_mode & 0o777, 0o640)
        self.assertEqual(len(list(self.folder.iterdir())), 4)

    def test_a_disk_that_is_full_leaves_the_old_page(self) -> None:
        self.page.write_bytes(b"old")
        told = ran("day", self.day, self.journal, "-o", self.page, preexec_fn=lambda: limited("FSIZE", 20000))
        self.assertEqual((told.returncode, told.stdout), (4, b""))
        self.assertIn(b"cannot be written: File too large", told.stderr)
        self.assertEqual(self.page.read_bytes(), b"old")
        self.assertEqual(len(list(self.folder.iterdir())), 3)

    def test_out_of_memory_is_a_line_and_a_status(self) -> None:
        os.truncate(self.day, 400 << 20)
        told = ran("day", self.day, self.journal, "-o", self.page, preexec_fn=lambda: limited("AS", 300 << 20))
        self.assertEqual((told.returncode, told.stdout), (7, b""), told.stderr[-300:])
        self.assertEqual(told.stderr.count(b"\n"), 1)
        self.assertIn(b"there was no memory", told.stderr)

    def test_out_of_memory_while_it_is_loaded_is_one_too(self) -> None:
        # too little for the modules, and enough for Python
        for name, words in (("day", (self.day, self.journal)), ("sheet", (self.day,)), ("truck", (self.day, self.day))):
            for megabytes in range(18, 30, 3):
                told = ran(name, *words, preexec_fn=lambda: limited("AS", megabytes << 20))
                line = f"{name}: there was no memory\n".encode()
                self.assertEqual((told.returncode, told.stdout, told.stderr), (7, b"", line), megabytes)

    def test_devices_and_pipes_are_written_to_as_they_stand(self) -> None:
        self.assertEqual(ran("day", self.day, self.journal, "-o", "/dev/null").returncode, 0)
        self.assertTrue(ran("day", self.day, self.journal, "-o", "/dev/stdout").stdout.endswith(b"</html>\n"))

    def test_control_characters_of_names_are_escaped(self) -> None:
        name = "a\x1b]0;title\x07\n\u202eb.csv"
        told = page(DAY, JOURNAL, name=name)
        self.assertIn(r"a\x1b]0;title\x07\n\u202eb.csv", Shown(told.stdout).text)
        self.assertNotIn(b"\x1b", told.stdout)
        files = (self.day, self.journal)
        for words in ((f"/{name}", "x"), (*files, "-o", f"/no/{name}"), (*files, f"--{name}")):
            told = ran("day", *words)
            self.assertNotIn(told.returncode, (0, 1))
            self.assertNotIn(b"\x1b", told.stderr)
            self.assertIn(b"title", told.stderr)


def limited(what: str, most: int) -> None:
    """Limits what a program may take. A file that grows too large is a fault then, and ends nothing."""
    resource.setrlimit(getattr(resource, f"RLIMIT_{what}"), (most, most))
    signal.signal(signal.SIGXFSZ, signal.SIG_IGN)


if __name__ == "__main__":
    unittest.main()
