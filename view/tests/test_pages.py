"""Tests of the page of a day in Chromium: what is shown is compared with the journal, and nothing runs or is loaded.

Each example and twenty made days are opened. Where PERMIT_PROGRAM names the program, their journals are its own.
"""
import os
import pathlib
import re
import shutil
import subprocess
import sys
import tempfile
import time
import unittest
from typing import Any

from browser import Browser, chromium
from support import EXAMPLES, day_examples, journal_of, made_day, names, ran, said_by

SIZES = (1, 2, 3, 4, 5, 6, 8, 10, 13, 20)
LARGE = os.environ.get("PERMIT_LARGE_DAY", "")
SECONDS = float(os.environ.get("PERMIT_VIEW_SECONDS", "1.5"))
# what the letters of a drawing measure at least, in pixels
LEAST_TEXT = 12

# Names, roles, labels, headings, focus and contrast, found in the page itself. It gives a list of what is wrong.
ACCESS = r"""(() => {
  const wrong = [];
  const shown = (it) => it.checkVisibility({ visibilityProperty: true });
  let level = 0;
  for (const it of document.querySelectorAll("h1,h2,h3,h4")) {
    const next = Number(it.tagName[1]);
    if (next > level + 1) wrong.push("heading " + it.textContent + " leaves out a level");
    level = next;
  }
  if (document.querySelectorAll("h1").length !== 1) wrong.push("there is not one h1");
  if (!document.documentElement.lang || !document.title) wrong.push("no language or no title");
  for (const it of document.querySelectorAll("input,select,button,a[href]")) {
    const label = it.labels && it.labels[0] && it.labels[0].textContent;
    const name = it.getAttribute("aria-label") || label || it.textContent;
    if (!name.trim()) wrong.push("no name: " + it.outerHTML.slice(0, 80));
  }
  for (const it of document.querySelectorAll("[id]")) {
    if (document.querySelectorAll("#" + CSS.escape(it.id)).length > 1) wrong.push("twice: " + it.id);
  }
  for (const it of document.querySelectorAll("table")) {
    if (!it.caption || !it.caption.textContent) wrong.push("a table without a caption");
    const heads = [...it.querySelectorAll("thead th")];
    if (!heads.every((head) => head.scope === "col")) wrong.push("a column without its scope");
  }
  const light = (text) => {
    const [r, g, b] = text.match(/[\d.]+/g).map(Number).map((it) => it / 255)
      .map((it) => it <= 0.03928 ? it / 12.92 : ((it + 0.055) / 1.055) ** 2.4);
    return 0.2126 * r + 0.7152 * g + 0.0722 * b;
  };
  const behind = (it) => {
    for (let up = it; up; up = up.parentElement) {
      const color = getComputedStyle(up).backgroundColor;
      if (!color.startsWith("rgba") || color.endsWith(", 1)")) return color;
    }
    return "rgb(255, 255, 255)";
  };
  for (const it of document.querySelectorAll("body *")) {
    if (it.closest("svg") || !shown(it)) continue;
    if (![...it.childNodes].some((node) => node.nodeType === 3 && node.textContent.trim())) continue;
    const [a, b] = [light(getComputedStyle(it).color), light(behind(it))].sort((x, y) => y - x);
    if ((a + 0.05) / (b + 0.05) < 4.5) wrong.push("contrast of " + it.textContent.slice(0, 40));
  }
  for (const it of document.querySelectorAll("path.road")) {
    const [a, b] = [light(getComputedStyle(it).stroke), light(behind(it.closest("svg")))].sort((x, y) => y - x);
    if ((a + 0.05) / (b + 0.05) < 3) wrong.push("contrast of a line " + it.getAttribute("class"));
  }
  return wrong;
})()"""
# What is wrong with the labels of a drawing: two that meet, one that leaves the drawing, meets a place or is too small.
LABELS = r"""(() => {
  const wrong = [], svg = document.querySelector("#frame svg");
  if (!svg) return ["there is no drawing"];
  const boxOf = (it) => { const box = it.getBoundingClientRect(); return [box.left, box.top, box.right, box.bottom]; };
  const meet = (a, b) => a[0] < b[2] - 0.5 && b[0] < a[2] - 0.5 && a[1] < b[3] - 0.5 && b[1] < a[3] - 0.5;
  const texts = [...svg.querySelectorAll("text:not(.alarm-text)")], whole = boxOf(svg), boxes = texts.map(boxOf);
  const scale = svg.getBoundingClientRect().width / svg.viewBox.baseVal.width;
  const leader = [...svg.querySelectorAll(".leader")].flatMap((it) => [...Array(50).keys()].map((at) => {
    const spot = it.getPointAtLength(it.getTotalLength() * at / 49), by = it.getScreenCTM();
    return [spot.x + by.e - 1, spot.y + by.f - 1, spot.x + by.e + 1, spot.y + by.f + 1];
  }));
  const places = [...svg.querySelectorAll(".node,.alarm")].map(boxOf);
  texts.forEach((text, at) => {
    const box = boxes[at], name = text.textContent;
    if (parseFloat(getComputedStyle(text).fontSize) * scale < LEAST) wrong.push("too small: " + name);
    if (box[0] < whole[0] || box[1] < whole[1] || box[2] > whole[2] || box[3] > whole[3]) wrong.push("cut: " + name);
    boxes.forEach((other, number) => {
      if (number < at && meet(box, other)) wrong.push(`${name} meets ${texts[number].textContent}`);
    });
    if (places.some((place) => meet(box, place))) wrong.push("a place is under " + name);
    const own = text.getAttribute("class") === "reason-text";
    if (!own && leader.some((spot) => meet(box, spot))) wrong.push("a line is under " + name);
  });
  return wrong;
})()""".replace("LEAST", str(LEAST_TEXT))
# The styles of the lines, bridges, places and marks in a part of the page, each once.
STYLES = r"""[...new Set([...document.querySelectorAll("WHERE svg :is(.road,.bridge,.node,.no,.alarm)")].map((it) => {
    const style = getComputedStyle(it), names = it.getAttribute("class").split(" ");
    const shape = names[0] === "node" ? it.tagName : names[0];
    return [shape, style.stroke, style.strokeWidth, style.strokeDasharray, style.fill].join(" ");
}))]"""
ROWS = """Object.fromEntries([...document.querySelectorAll("tr[id]")].filter((row) => row.checkVisibility())
  .map((row) => [row.id, [...row.cells].map((cell) => cell.textContent.replace(/\\s+/g, " ").trim())]))"""


@unittest.skipUnless(chromium(), "chromium is not installed")
class Pages(unittest.TestCase):
    browser: Browser
    folder: "tempfile.TemporaryDirectory[str]"

    @classmethod
    def setUpClass(cls) -> None:
        cls.browser, cls.folder = Browser(), tempfile.TemporaryDirectory()

    @classmethod
    def tearDownClass(cls) -> None:
        cls.browser.close()
        cls.folder.cleanup()

    def setUp(self) -> None:
        self.browser.wide(1280)

    def page(self, day: bytes, journal: bytes, name: str = "day", *words: str) -> pathlib.Path:
        """The page of a day, in a folder of its own in that of the tests."""
        folder = tempfile.mkdtemp(dir=self.folder.name)
        files = [pathlib.Path(folder, name + ending) for ending in (".csv", ".journal", ".html")]
        files[0].write_bytes(day)
        files[1].write_bytes(journal)
        told = ran("day", files[0], files[1], "--output", files[2], *words)
        self.assertEqual((told.returncode, told.stderr), (0, b""))
        return files[2]

    def quiet(self, path: pathlib.Path) -> None:
        """Nothing was said on the console, and nothing was asked for but the page itself."""
        self.assertEqual(self.browser.faults(), [])
        asked = {address.split("#")[0] for address in self.browser.requests()}
        self.assertLessEqual(asked - {"about:blank", "data:,"}, {path.resolve().as_uri()})

    def set(self, name: str, value: str, event: str) -> None:
        self.browser.value(
            f"(() => {{ const it = document.getElementById('{name}'); it.value = {value!r}; "
            f"it.dispatchEvent(new Event('{event}', {{ bubbles: true }})); }})()"
        )

    def compare(self, day: bytes, journal: bytes) -> None:
        """Compares what is shown with the lines of the journal."""
        path = self.page(day, journal)
        self.browser.open(path)
        said, rows = said_by(journal.decode()), self.browser.value(ROWS)
        segments, trucks = names(day, "segment"), names(day, "truck")
        self.assertEqual(
            {name for name in rows if name.startswith("permit-")}, {f"permit-{it}" for it in said["permits"]}
        )
        for number, wanted in said["permits"].items():
            row = rows[f"permit-{number}"]
            self.assertEqual((row[3], row[4]), (trucks[wanted["truck"] - 1], " to ".join(wanted["days"])))
            routes = [", ".join(segments[it - 1] for it in route) for route in wanted["routes"]]
            self.assertIn("by " + "; or by ".join(routes) + " ", row[5])
            recalled = said["recalled"].get(number)
            self.assertEqual(row[1].startswith(f"Recalled by posting {recalled}:"), recalled is not None, row[1])
        recalls = [", ".join(f"permit {number}" for number in it) or "nothing" for it in said["postings"]]
        self.assertEqual([row[4] for name, row in rows.items() if name.startswith("posting-")], recalls)
        self.assertEqual(sum(name.startswith("answer-") for name in rows), len(said["answers"]))
        self.carriers(day, rows)
        self.slider(day, said, journal.decode())
        self.quiet(path)

    def carriers(self, day: bytes, rows: dict[str, list[str]]) -> None:
        """The choice by carrier shows just the rows of each carrier."""
        carried = {name: row for name, row in rows.items() if not name.startswith("posting-")}
        carriers = self.browser.value("[...carrier.options].map((it) => it.value).filter(Boolean)")
        self.assertEqual(set(carriers), {row[2] for row in carried.values()})
        for carrier in carriers:
            self.set("carrier", carrier, "change")
            shown = [name for name in self.browser.value(ROWS) if not name.startswith("posting-")]
            self.assertEqual(shown, [name for name, row in carried.items() if row[2] == carrier])
        self.set("carrier", "", "change")

    def slider(self, day: bytes, said: dict[str, Any], journal: str) -> None:
        """The slider shows at some versions just the segments that are closed then, and the route of a permit."""
        segments = [line.split(",") for line in day.decode().split("\n") if line.startswith("segment,")]
        closed = {line.split(",")[1] for line in day.decode().split("\n") if re.match(r"limit,[^,]*,closed,1", line)}
        posts = re.findall(r"post segment (\d+) closed ([01]) = posted (\d+)", journal)
        last = len(said["postings"])
        self.assertEqual(self.browser.value("Number(version.max)"), last)
        drawn = self.browser.value("document.querySelectorAll('#frame path.road').length")
        self.assertIn(drawn, (0, len(segments)))
        for version in sorted({0, last // 2, last}):
            self.set("version", str(version), "input")
            now = set(closed)
            for segment, value, at in posts:
                if int(at) <= version:
                    (now.add if value == "1" else now.discard)(segments[int(segment) - 1][1])
            if drawn:
                got = self.browser.value("[...document.querySelectorAll('#frame path.closed')].map((it) => it.id)")
                self.assertEqual({segments[int(name[5:]) - 1][1] for name in got}, now)
            self.assertIn(f"version {version}", self.browser.value("saying.textContent"))
            self.assertIn(f"{len(now)} road", self.browser.value("saying.textContent"))
        for number, wanted in list(said["permits"].items())[:3]:
            self.set("choice", f"permit-{number}", "change")
            got = self.browser.value(
                "[...document.querySelectorAll('#frame path.route')].map((it) => Number(it.id.slice(5)))"
            )
            held = list(dict.fromkeys(it for route in wanted["routes"] for it in route))
            self.assertEqual(sorted(got), sorted(held))
            listed = self.browser.value("[...listed.tBodies[0].rows].map((row) => row.cells[0].textContent)")
            self.assertEqual(listed[: len(held)], [segments[it - 1][1] for it in held])

    def test_each_example(self) -> None:
        for file in day_examples():
            with self.subTest(file.name):
                day = file.read_bytes().replace(b"\xef\xbb\xbf", b"").replace(b"\r\n", b"\n").replace(b'"', b"")
                self.compare(day, file.with_suffix(".journal").read_bytes())

    def test_twenty_made_days(self) -> None:
        for number in range(20):
            day = made_day(100 + number, SIZES[number // 2])
            with self.subTest(number):
                self.compare(day, journal_of(day))

    def test_a_large_network_shows_each_route_of_an_annual_permit(self) -> None:
        asked = b"w0-0 s0-0|s0-1 w1-0|w0-0 s0-0"
        apply = b"apply,a1,t1,n0-1,n1-0," + asked + b",2026-01-01,2026-12-31\n"
        day = made_day(1, 20).replace(b"apply,", apply + b"apply,", 1)
        journal = journal_of(day)
        path = self.page(day, journal, "annual")
        self.browser.open(path)
        permits = said_by(journal.decode())["permits"]
        number, wanted = next((number, it) for number, it in permits.items() if len(it["routes"]) == 3)
        self.set("choice", f"permit-{number}", "change")
        self.assertIn("this is each route alone", self.browser.value("frame.textContent"))
        got = self.browser.value(
            "[...document.querySelectorAll('#frame path.route')].map((it) => Number(it.id.slice(5)))"
        )
        first, second, _ = wanted["routes"]
        # the third route is the first one again, whose segments have their names in the page already
        self.assertEqual(got, [*first, *second, 0, 0])
        listed = self.browser.value("[...listed.tBodies[0].rows].map((row) => row.cells[2].textContent)")
        self.assertEqual([text.startswith("on a route; ") for text in listed], [at < 4 for at in range(len(listed))])
        self.quiet(path)

    def test_a_link_to_a_permit(self) -> None:
        path = self.page((EXAMPLES / "template.csv").read_bytes(), (EXAMPLES / "template.journal").read_bytes())
        self.browser.open(path, "#permit-2")
        self.assertEqual(self.browser.value("document.querySelector('tr.chosen').id"), "permit-2")
        self.assertEqual(self.browser.value("version.value"), "2")
        top = self.browser.value("document.getElementById('permit-2').getBoundingClientRect().top")
        self.assertTrue(0 <= top < 900, top)
        self.browser.open(path, "#carrier-BOLT")
        self.assertEqual([name for name in self.browser.value(ROWS) if name[:7] != "posting"], ["answer-1"])

    def test_a_cut(self) -> None:
        path = self.page((EXAMPLES / "template.csv").read_bytes(), (EXAMPLES / "template.journal").read_bytes())
        self.browser.open(path, "#answer-3")
        # from DEPOT no further: US20-E fails by its bridge, and RING-E is closed
        self.assertEqual(
            self.browser.value("[...document.querySelectorAll('#frame path.cut')].map((it) => it.id).sort()"),
            ["road-1", "road-5"],
        )
        self.assertEqual(self.browser.value("document.querySelectorAll('#frame .reached').length"), 1)
        self.assertIn("can reach 1 place", self.browser.value("note.textContent"))

    def test_the_search_field_by_keyboard(self) -> None:
        path = self.page((EXAMPLES / "template.csv").read_bytes(), (EXAMPLES / "template.journal").read_bytes())
        self.browser.open(path)
        for _ in range(3):
            self.browser.press("Tab", 9)
        self.assertEqual(self.browser.value("document.activeElement.id"), "search")
        for letter in "recalled":
            self.browser.press(letter, ord(letter.upper()), letter)
        self.assertEqual(
            [name for name in self.browser.value(ROWS) if name[:7] != "posting"], ["permit-1", "permit-2", "permit-3"]
        )
        self.assertEqual(self.browser.value("found.textContent"), "3 permits and 0 other answers shown")
        outline = self.browser.value("getComputedStyle(document.activeElement).outlineStyle")
        self.assertEqual(outline, "solid")
        self.browser.value("version.focus()")
        self.browser.press("ArrowLeft", 37)
        self.assertEqual(self.browser.value("version.value"), "5")
        self.assertIn("version 5: RING-E is open", self.browser.value("version.getAttribute('aria-valuetext')"))

    def test_every_control_is_reached_by_keyboard_in_its_order(self) -> None:
        path = self.page((EXAMPLES / "recall.csv").read_bytes(), (EXAMPLES / "recall.journal").read_bytes())
        self.browser.open(path)
        wanted = self.browser.value(
            "[...document.querySelectorAll('a[href],input,select,button,summary,[tabindex=\"0\"]')]"
            ".filter((it) => it.checkVisibility()).map((it) => it.outerHTML)"
        )
        got = []
        for _ in wanted:
            self.browser.press("Tab", 9)
            got.append(self.browser.value("document.activeElement.outerHTML"))
        self.assertEqual(got, wanted)

    def test_names_contrast_and_headings(self) -> None:
        for name in ("template", "no-road"):
            path = self.page((EXAMPLES / f"{name}.csv").read_bytes(), (EXAMPLES / f"{name}.journal").read_bytes())
            for anchor in ("", "#permit-1", "#answer-3"):
                for width in (1280, 375):
                    self.browser.wide(width)
                    self.browser.open(path, anchor)
                    self.assertEqual(self.browser.value(ACCESS), [], (name, anchor, width))

    def test_tables_stay_tables_for_a_screen_reader(self) -> None:
        path = self.page((EXAMPLES / "template.csv").read_bytes(), (EXAMPLES / "template.journal").read_bytes())
        for width in (1280, 375):
            self.browser.wide(width)
            self.browser.open(path)
            nodes = self.browser.call("Accessibility.getFullAXTree")["nodes"]
            roles = [node["role"]["value"] for node in nodes if not node.get("ignored")]
            self.assertEqual(roles.count("table"), 4)
            # four permits, five answers, six postings, six roads, and a head for each where it is shown
            self.assertGreaterEqual(roles.count("row"), 21)
            self.assertEqual(roles.count("rowheader"), 21)
            self.assertEqual(roles.count("slider"), 1)

    def test_three_widths(self) -> None:
        path = self.page((EXAMPLES / "template.csv").read_bytes(), (EXAMPLES / "template.journal").read_bytes())
        for width in (375, 768, 1280):
            self.browser.wide(width)
            self.browser.open(path)
            self.assertLessEqual(self.browser.value("document.documentElement.scrollWidth"), width)
            small = self.browser.value(
                "[...document.querySelectorAll('input,select,button')]"
                ".filter((it) => it.checkVisibility() && it.getBoundingClientRect().height < 24).length"
            )
            self.assertEqual(small, 0)

    def test_print(self) -> None:
        path = self.template()
        self.browser.open(path)
        self.assertTrue(self.browser.printed().startswith(b"%PDF"))
        self.media("print")
        hidden = self.browser.value(
            "[...document.querySelectorAll('.controls,.screen,.skip')].filter((it) => "
            "it.checkVisibility()).length"
        )
        self.assertEqual(hidden, 0)
        self.assertEqual(len(self.browser.value(ROWS)), 15)
        # a head is repeated on each sheet where it is the head of a table, and no grid
        for name, kind in (("thead", "table-header-group"), ("tbody tr", "table-row"), ("td", "table-cell")):
            got = self.browser.value(f"[...new Set([...document.querySelectorAll('{name}')].map((it) => "
                                     "getComputedStyle(it).display))]")
            self.assertEqual(got, [kind])

    def test_heads_repeat_on_each_printed_sheet(self) -> None:
        if not shutil.which("pdftotext"):
            self.skipTest("pdftotext is not installed")
        day = made_day(7, 6)
        path = self.page(day, journal_of(day))
        self.browser.open(path)
        paper = pathlib.Path(self.folder.name, "paper.pdf")
        paper.write_bytes(self.browser.printed())
        text = subprocess.run(["pdftotext", "-layout", paper, "-"], capture_output=True, check=True).stdout.decode()
        sheets = [sheet for sheet in text.split("\f") if re.search(r"Permit [0-9]", sheet)]
        self.assertGreater(len(sheets), 1)
        for sheet in sheets[:-1]:
            self.assertIn("From, to and routes", sheet)

    def media(self, media: str = "", **features: str) -> None:
        """Shows the page as on paper, dark, or with forced colours, until the end of the test."""
        chosen = [{"name": name.replace("_", "-"), "value": value} for name, value in features.items()]
        self.browser.call("Emulation.setEmulatedMedia", media=media, features=chosen)
        self.addCleanup(self.browser.call, "Emulation.setEmulatedMedia", media="", features=[])

    def template(self, *words: str, name: str = "template") -> pathlib.Path:
        """The page of an example."""
        day, journal = ((EXAMPLES / f"{name}{ending}").read_bytes() for ending in (".csv", ".journal"))
        return self.page(day, journal, "day", *words)

    def test_dark_and_forced_colours(self) -> None:
        path = self.template()
        for features in ({"prefers_color_scheme": "dark"}, {"forced_colors": "active"},
                         {"forced_colors": "active", "prefers_color_scheme": "dark"}):
            self.media(**features)
            for anchor in ("#permit-2", "#answer-3"):
                self.browser.open(path, anchor)
                self.assertEqual(self.browser.value(ACCESS), [], (features, anchor))
            light = self.browser.value("getComputedStyle(document.body).backgroundColor") == "rgb(255, 255, 255)"
            self.assertEqual(light, "prefers_color_scheme" not in features)

    def test_a_telephone_shows_the_first_answer_below_no_controls(self) -> None:
        program = pathlib.Path(self.folder.name, "stand-in")
        program.write_text("#!/bin/sh\ncat >/dev/null\necho legal 28\n")
        program.chmod(0o755)
        for words in ((), ("--program", str(program))):
            path = self.template(*words)
            self.browser.wide(360, 640)
            self.browser.open(path)
            row = self.browser.value("document.getElementById('permit-1').getBoundingClientRect().top")
            self.assertLess(row, 560)
            self.assertFalse(self.browser.value("finding.open"))
            small = self.browser.value(
                "[...document.querySelectorAll('body *')].filter((it) => it.checkVisibility() && it.textContent.trim()"
                f" && parseFloat(getComputedStyle(it).fontSize) < {LEAST_TEXT}).length"
            )
            self.assertEqual(small, 0)
            self.assertLessEqual(self.browser.value("document.documentElement.scrollWidth"), 360)
            for anchor in ("#permit-1", "#permit-2", "#answer-3"):
                self.browser.open(path, anchor)
                self.assertEqual(self.browser.value(LABELS), [])

    def test_a_telephone_shows_the_reason_whole(self) -> None:
        day = made_day(5, 4)
        paths = [self.template(), self.template(name="annual"), self.page(day, journal_of(day))]
        self.browser.wide(360, 780)
        seen = 0
        for path in paths:
            self.browser.open(path)
            failing = "JSON.parse(document.getElementById('data').textContent).chosen.filter((it) => it.fails)"
            for it in self.browser.value(f"{failing}.map((it) => it.id)")[:8]:
                self.set("choice", it, "change")
                frame, mark, reason = (self.browser.value(
                    f"[...document.querySelectorAll('{name}')].map((it) => it.getBoundingClientRect())"
                    ".map((it) => [it.left, it.top, it.right, it.bottom])[0]"
                ) for name in ("#frame", "#frame .alarm", "#frame .reason"))
                far = [max(mark[at + 2], reason[at + 2]) - min(mark[at], reason[at]) for at in (0, 1)]
                # of both that are too far from each other the reason alone is whole
                fits = all(far[at] < frame[at + 2] - frame[at] - 40 for at in (0, 1))
                for box in (mark, reason) if fits else (reason,):
                    inside = all(frame[at] <= box[at] and box[at + 2] <= frame[at + 2] for at in (0, 1))
                    self.assertTrue(inside, (it, frame, box))
                seen += fits
        self.assertGreater(seen, 3)

    def test_a_network_of_few_places_is_laid_so_that_it_fits_a_telephone(self) -> None:
        path = self.template(name="annual")
        self.browser.wide(360, 780)
        for it in ("#permit-1", "#permit-2"):
            self.browser.open(path, it)
            wide = self.browser.value("[document.querySelector('#frame svg').width.baseVal.value, frame.clientWidth]")
            self.assertLessEqual(*wide)

    def test_the_drawing_points_at_what_fails(self) -> None:
        path = self.template()
        self.browser.open(path, "#permit-1")
        drawn = self.browser.value(
            "[...document.querySelectorAll('#frame .fails')].map((it) => it.getAttribute('class'))"
        )
        self.assertEqual(sorted(drawn), ["bridge fails", "head restricted route fails", "road restricted route fails"])
        red = self.browser.value("getComputedStyle(document.querySelector('.state')).color")
        stroke = "getComputedStyle(document.querySelector('{}')).stroke"
        for name in ("#road-1", "#frame .bridge.fails"):
            self.assertEqual(self.browser.value(stroke.format(name)), red)
        # it is folded into lines where it is long
        reason = self.browser.value(
            "[...document.querySelectorAll('#frame .reason-text')].map((it) => it.textContent).join(' ')"
        )
        self.assertRegex(reason, r"^MILL-BR-E: moment 6,752,109\S*\s*lb·in")
        self.assertNotEqual(self.browser.value(stroke.format("#road-3")), red)
        # what fails at one version does not at another one
        self.set("version", "0", "input")
        self.assertEqual(self.browser.value("document.querySelectorAll('#frame .fails').length"), 0)
        self.assertIn("That is of version 1", self.browser.value("note.textContent"))
        self.assertIn("of the day file", self.browser.value("saying.textContent"))
        self.browser.open(path, "#permit-3")
        self.assertEqual(self.browser.value(stroke.format("#road-5")), red)
        self.assertEqual(self.browser.value("document.querySelector('#frame .reason-text').textContent"), "closed")
        self.assertIn("1,250 thousandths of HS20-44", self.browser.value("listed.textContent"))

    def test_each_style_of_the_drawing_stands_in_its_key(self) -> None:
        for name in ("template", "no-road", "annual", "bridge"):
            path = self.template(name=name)
            self.browser.open(path)
            key = self.browser.value(STYLES.replace("WHERE", ".key"))
            for it in ["", *self.browser.value("[...choice.options].map((it) => it.value)")]:
                self.set("choice", it, "change")
                drawn = self.browser.value(STYLES.replace("WHERE", "#frame"))
                self.assertLessEqual(set(drawn), set(key), (name, it))
        # none is told by its colour alone
        hollow = {style.replace("rgb(255, 255, 255)", "hollow") for style in key}
        self.assertEqual(len(key), len({re.sub(r"rgb\([^)]*\)", "", style) for style in hollow}), key)

    def test_names_of_16_letters_meet_nothing(self) -> None:
        long = "ABCDEFGHIJKLMNOP"
        for name in ("template", "annual", "two-recalls"):
            day = (EXAMPLES / f"{name}.csv").read_text()
            journal = (EXAMPLES / f"{name}.journal").read_bytes()
            for kind in ("node", "segment", "span"):
                for at, word in enumerate(names(day.encode(), kind)):
                    day = re.sub(rf"(?<![\w-]){word}(?![\w-])", f"{long[:14]}{kind[1]}{at}", day)
            path = self.page(day.encode(), journal)
            for width in (1280, 360):
                self.browser.wide(width)
                self.browser.open(path)
                for it in ["", *self.browser.value("[...choice.options].map((it) => it.value)")]:
                    self.set("choice", it, "change")
                    self.assertEqual(self.browser.value(LABELS), [], (name, width, it))
                    self.assertEqual(self.browser.value("unnamed.textContent"), "", (name, width, it))

    def test_names_of_made_days_meet_nothing(self) -> None:
        for seed, size in ((5, 2), (6, 4), (7, 7), (8, 10)):
            day = made_day(seed, size)
            path = self.page(day, journal_of(day))
            for width in (1280, 360):
                self.browser.wide(width)
                self.browser.open(path)
                for it in self.browser.value("[...choice.options].map((it) => it.value)")[:6]:
                    self.set("choice", it, "change")
                    self.assertEqual(self.browser.value(LABELS), [], (seed, width, it))

    def test_a_permit_is_found_by_its_number(self) -> None:
        day = made_day(7, 6)
        path = self.page(day, journal_of(day))
        self.browser.open(path)
        everything = [name for name in self.browser.value(ROWS) if name[:7] != "posting"]
        for words in ("permit 1", "Permit 12", "permit #12", "answer 3", "PERMIT 012"):
            self.set("search", words, "input")
            kind, number = words.lower().replace("#", "").split()
            wanted = [name for name in everything if name == f"{kind}-{int(number)}"]
            self.assertEqual([name for name in self.browser.value(ROWS) if name[:7] != "posting"], wanted, words)
        self.set("search", "posting 1", "input")
        recalled = [row[1] for name, row in self.browser.value(ROWS).items() if name.startswith("permit-")]
        self.assertTrue(all("by posting 1:" in text for text in recalled), recalled)

    def test_enter_does_nothing_harmful(self) -> None:
        path = self.template()
        self.browser.open(path)
        self.browser.value("search.focus()")
        for letter in "bolt":
            self.browser.press(letter, ord(letter.upper()), letter)
        before = self.browser.value("location.href")
        self.browser.press("Enter", 13, "\r")
        time.sleep(0.2)
        self.assertEqual(self.browser.value("location.href"), before)
        self.assertEqual(self.browser.value("search.value"), "bolt")
        self.assertEqual([name for name in self.browser.value(ROWS) if name[:7] != "posting"], ["answer-1"])
        self.quiet(path)

    def test_the_address_follows_what_is_chosen(self) -> None:
        path = self.template()
        self.browser.open(path)
        address = "location.hash"
        self.set("choice", "permit-2", "change")
        self.assertEqual(self.browser.value(address), "#permit-2")
        self.set("carrier", "BOLT", "change")
        self.assertEqual(self.browser.value(address), "#carrier-BOLT")
        self.assertTrue(self.browser.value("clear.checkVisibility()"))
        self.browser.value("clear.click()")
        self.assertEqual(self.browser.value(address), "")
        self.assertEqual(len(self.browser.value(ROWS)), 15)
        self.browser.value("document.querySelector('#answer-2 button').click()")
        self.assertEqual(self.browser.value(address), "#answer-2")
        self.quiet(path)

    def test_a_permit_by_keyboard_alone(self) -> None:
        path = self.template()
        self.browser.wide(360, 640)
        self.browser.open(path)

        def to(name: str) -> None:
            for _ in range(60):
                self.browser.press("Tab", 9)
                if self.browser.value(f"document.activeElement.matches({name!r})"):
                    shown = self.browser.value("getComputedStyle(document.activeElement).outlineStyle")
                    self.assertEqual(shown, "solid", name)
                    return
            self.fail(f"no {name} is reached")

        to("summary")
        self.browser.press("Enter", 13, "\r")
        to("#search")
        for letter in "permit 2":
            self.browser.press(letter, ord(letter.upper()), letter)
        self.browser.press("Enter", 13, "\r")
        self.assertEqual([name for name in self.browser.value(ROWS) if name[:7] != "posting"], ["permit-2"])
        to("#permit-2 button")
        self.browser.press("Enter", 13, "\r")
        self.assertEqual(self.browser.value("document.activeElement.id + location.hash"), "choice#permit-2")
        to("#version")
        self.browser.press("ArrowLeft", 37)
        self.assertIn("That is of version 2; the roads are shown at version 1", self.browser.value("note.textContent"))
        to("#later")
        self.browser.press("Enter", 13, "\r")
        self.assertEqual(self.browser.value("version.value"), "2")
        self.quiet(path)

    def test_an_address_that_names_nobody_shows_nothing(self) -> None:
        path = self.template()
        for anchor in ("#permit-5", "#answer-9", "#carrier-NOBODY", "#carrier-", "#%3Cimg%3E", "#%", "#permit-01"):
            self.browser.open(path, anchor)
            self.assertEqual(self.browser.value(ROWS), {}, anchor)
            self.assertFalse(self.browser.value("document.getElementById('frame').checkVisibility()"))
            self.assertIn("so nothing is shown", self.browser.value("found.textContent"))
            self.assertTrue(self.browser.value("found.checkVisibility() && clear.checkVisibility()"))
        self.browser.value("clear.click()")
        self.assertEqual(len(self.browser.value(ROWS)), 15)
        self.browser.open(path, "#postings")
        self.assertEqual(len(self.browser.value(ROWS)), 15)

    def test_without_graphviz_the_tables_and_the_chosen_route_are_there(self) -> None:
        path = self.template()
        made = path.read_text()
        found = re.search(r'"places":\[\[.*?\]\],"why":""', made)
        assert found is not None
        path.write_text(made.replace(found[0], '"places":null,"why":"graphviz is not installed"'))
        self.browser.open(path, "#permit-1")
        self.assertEqual(len(self.browser.value(ROWS)), 15)
        self.assertIn("graphviz is not installed: this is the route alone", self.browser.value("frame.textContent"))
        for width in (1280, 360):
            self.browser.wide(width)
            self.browser.open(path, "#permit-1")
            self.assertEqual(self.browser.value(LABELS), [])
            self.assertIn("road-1", self.browser.value("document.querySelector('#frame path.fails').id"))

    def test_a_page_of_a_permit_prints_on_one_sheet(self) -> None:
        day = made_day(5, 20)
        path = self.page(day, journal_of(day), "made", "--permit", "1")
        pages = [path, self.template("--permit", "1"), self.template("--carrier", "ACME")]
        pages += [self.template("--permit", "1", name=name) for name in ("annual", "bridge", "tridem")]
        for it in pages:
            for paper in ({"paperWidth": 8.27, "paperHeight": 11.69}, {"paperWidth": 8.5, "paperHeight": 11}):
                self.show(it)
                printed = self.browser.printed(preferCSSPageSize=True, **paper)
                self.assertEqual(len(re.findall(rb"/Type\s*/Page\b", printed)), 1, it.name)
            self.browser.wide(360)
            self.show(it)
            self.assertLessEqual(self.browser.value("document.documentElement.scrollWidth"), 360, it.name)
            self.assertEqual(self.browser.value(ACCESS), [], it.name)

    def best_of(self, path: pathlib.Path, times: int) -> tuple[float, float]:
        """The least seconds until a page is open, and the least processor time that it takes for that."""
        self.browser.call("Performance.enable", timeDomain="threadTicks")
        self.addCleanup(self.browser.call, "Performance.disable")
        found = []
        for _ in range(times):
            took = self.browser.open(path)
            metrics = self.browser.call("Performance.getMetrics")["metrics"]
            found.append((took, next(it["value"] for it in metrics if it["name"] == "TaskDuration")))
        return min(it[0] for it in found), min(it[1] for it in found)

    def show(self, path: pathlib.Path) -> None:
        """Opens a page that has no script."""
        self.browser.call("Page.navigate", url=path.resolve().as_uri())
        while self.browser.value("document.readyState + location.href") != "complete" + path.resolve().as_uri():
            time.sleep(0.02)

    def test_hostile_names_are_text_and_run_nothing(self) -> None:
        made = {b"DEPOT": b"__proto__", b"CREEK": b"constructor", b"ACME": b"toString", b"LOWBOY": b"hasOwnProperty"}
        day = (EXAMPLES / "template.csv").read_bytes()
        for name, hostile in made.items():
            day = re.sub(rb"(?<![A-Za-z0-9_-])" + name + rb"(?![A-Za-z0-9_-])", hostile, day)
        file = "<img src=x onerror=document.title='run'>&\"'</script><script>document.title='run'<!--"
        path = self.page(day, (EXAMPLES / "template.journal").read_bytes(), file.replace("/", "\\"))
        self.browser.open(path, "#permit-1")
        self.assertEqual(self.browser.value("document.title"), "Permit office, 2026-03-02")
        self.assertEqual(self.browser.value("document.querySelectorAll('img').length"), 0)
        self.assertIn("<img src=x onerror", self.browser.value("document.querySelector('footer').innerText"))
        self.assertIn("__proto__ to PLANT", self.browser.value(ROWS)["permit-1"][5])
        self.set("carrier", "toString", "change")
        self.assertEqual(len([name for name in self.browser.value(ROWS) if name[:7] == "permit-"]), 4)
        self.assertIn(
            "from __proto__",
            self.browser.value("[...document.querySelectorAll('#frame text')].map((it) => it.textContent)"),
        )
        self.quiet(path)

    def test_the_policy_stops_a_script_that_is_put_in(self) -> None:
        path = self.page((EXAMPLES / "recall.csv").read_bytes(), (EXAMPLES / "recall.journal").read_bytes())
        data = path.read_text().replace(
            "</header>", "<script>document.title='run'</script><img src=https://example.org/x></header>"
        )
        path.write_text(data)
        self.browser.open(path)
        self.assertEqual(self.browser.value("document.title"), "Permit office, 2026-03-02")
        said = " ".join(self.browser.faults())
        self.assertIn("Content Security Policy", said)

    def test_a_page_without_scripts_has_all_rows(self) -> None:
        path = self.page((EXAMPLES / "template.csv").read_bytes(), (EXAMPLES / "template.journal").read_bytes())
        self.browser.call("Emulation.setScriptExecutionDisabled", value=True)
        try:
            self.browser.call("Page.navigate", url=path.resolve().as_uri())
            time.sleep(1)
            text = self.browser.call("Runtime.evaluate", expression="document.body.innerText", returnByValue=True)[
                "result"
            ]["value"]
        finally:
            self.browser.call("Emulation.setScriptExecutionDisabled", value=False)
        self.assertIn("Recalled by posting 1: bridge MILL-BR-E on US20-E has a rating of 1,250", text)
        self.assertIn("wants scripts", text)
        self.assertNotIn("Show on the roads", text)

    def test_a_large_day_opens_soon(self) -> None:
        if not LARGE:
            self.skipTest("no program is named that runs a day at the limits")
        day = pathlib.Path(LARGE).read_bytes()
        journal = journal_of(day)
        path = self.page(day, journal, "large")
        took, busy = self.best_of(path, 5)
        print(
            f"\npages: {len(day):,} bytes of a day file and {len(journal):,} of its journal open in {took:.2f} "
            f"seconds; the page itself takes {busy:.2f}",
            file=sys.stderr,
        )
        # where others want the processors too, the time of the page itself counts
        is_crowded = os.getloadavg()[0] > (os.cpu_count() or 1)
        self.assertLess(busy if is_crowded else took, SECONDS)
        self.assertIn("are too many to be drawn", self.browser.value("frame.textContent"))
        said = said_by(journal.decode())
        number, wanted = max(said["permits"].items(), key=lambda it: sum(map(len, it[1]["routes"])))
        self.set("choice", f"permit-{number}", "change")
        got = self.browser.value(
            "[...document.querySelectorAll('#frame path.route[id]')].map((it) => Number(it.id.slice(5)))"
        )
        self.assertEqual(got, list(dict.fromkeys(it for route in wanted["routes"] for it in route)))
        self.quiet(path)


if __name__ == "__main__":
    unittest.main()
