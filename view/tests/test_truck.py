"""Tests of view/truck: parts of the SVG at their places, tables and envelopes against sums by hand, each bad input, and
outputs that are whole or not there."""
import csv
import os
import pathlib
import re
import subprocess
import tempfile
import unittest
import xml.etree.ElementTree as Tree
from fractions import Fraction

from support import EXAMPLES, VIEW, check_examples, ran

from office_view.loading import design_envelope, envelope, greatest_at, influence, lane_moment, reaction  # noqa: E402
from office_view.loading import sections  # noqa: E402
from office_view.rating import percent, rounded  # noqa: E402
from model.bridges import HS20, peak_moment  # noqa: E402

SVG, LINK = "{http://www.w3.org/2000/svg}", "{http://www.w3.org/1999/xlink}"
LOWBOY = b"""truck,LOWBOY,ACME,168,120,780,0:12000 180:30000 234:30000,
probe,480,1250,,,,,
probe,480,1251,,,,,
end,,,,,,,
"""
# the report on it, as docs/ENGINEER.md works it out by hand
REPORT = b"""truck LOWBOY axles 3 gross 72000
over 1-3 72000 50500 formula
over 2-2 30000 20000 single
over 2-3 60000 34000 tandem
over 3-3 30000 20000 single
high 168 162
wide 120 102
legal no
span 480
moment 54016875/8 at 4 255 975 axle 2 run 1-3
shear 62775/1 at 246 right
hs20 5397600/1 55200/1
rating 1250 moment
span 480
moment 54016875/8 at 4 255 975 axle 2 run 1-3
shear 62775/1 at 246 right
hs20 5397600/1 55200/1
rating 1251 fits
"""


# the same truck as docs/ENGINEER.md rates it on 150 ft beside the three design loads, and as a convoy on 20 ft
HS20_CHECK = b"""truck,HS20,ACME,150,102,500,0:8000 168:32000 336:32000,
probe,1800,1000,,,,,
probe,240,1000,,,,,
end,,,,,,,
"""
DESIGN = b"""span 1800
moment 29700000/1 lane
shear 74000/1 lane
rating 1000 fits
span 240
moment 2332800/1 military
shear 43200/1 military
rating 1000 fits
"""
CONVOY_CHECK = b"""truck,HS20,ACME,150,102,500,0:8000 168:32000 336:32000,
probe,240,1152,,,,,
probe,240,1151,,,,,
end,,,,,,,
"""
CONVOY = b"""convoy 2 gap 48 axles 6 gross 144000
span 240
moment 2211840/1
shear 42400/1
rating 1152 fits
span 240
moment 2211840/1
shear 42400/1
rating 1151 moment
"""


class Picture:
    """An SVG by the names of its parts."""

    def __init__(self, data: bytes) -> None:
        self.root = Tree.fromstring(data)
        self.parts = {part.get("id", ""): part for part in self.root.iter(SVG + "g")}

    def mark(self, name: str) -> tuple[float, float]:
        """Where a mark stands."""
        use = next(self.parts[name].iter(SVG + "use"))
        return float(use.get("x", "")), float(use.get("y", ""))

    def marks(self, name: str) -> list[tuple[float, float]]:
        return [(float(use.get("x", "")), float(use.get("y", ""))) for use in self.parts[name].iter(SVG + "use")]

    def line(self, name: str) -> list[tuple[float, float]]:
        """The corners of a line."""
        path = next(part for part in self.parts[name].iter(SVG + "path") if "clip-path" in part.attrib)
        return [(float(x), float(y)) for x, y in re.findall(r"[ML] (\S+) (\S+)", path.get("d", ""))]

    def corners(self, name: str) -> list[tuple[float, float]]:
        """The ends of all lines and curves of a part."""
        path = next(part for part in self.parts[name].iter(SVG + "path") if "clip-path" in part.attrib)
        numbers = re.findall(r"-?[0-9.]+", path.get("d", ""))
        return [(float(x), float(y)) for x, y in zip(numbers[::2], numbers[1::2])]

    def text(self, name: str) -> str:
        return re.sub(r"\s*\n\s*", "", "".join(self.parts[name].itertext()))

    def place(self, name: str) -> tuple[float, float]:
        """Where a text begins or has its middle."""
        text = next(self.parts[name].iter(SVG + "text"))
        found = re.search(r"translate\(([0-9.-]+) ([0-9.-]+)\)", text.get("transform", ""))
        if found:
            return float(found[1]), float(found[2])
        return float(text.get("x", "")), float(text.get("y", ""))


def drawn(check: bytes, report: bytes, *words: str) -> "subprocess.CompletedProcess[bytes]":
    with tempfile.TemporaryDirectory() as folder:
        files = pathlib.Path(folder, "check.csv"), pathlib.Path(folder, "report.txt")
        files[0].write_bytes(check)
        files[1].write_bytes(report)
        return ran("truck", *files, *words)


def again(check: bytes) -> bytes:
    """The report of `check` as the second program writes it, where a picture is looked at and no number of it."""
    from model.files import CheckFile
    from model.report import report

    return str(report(CheckFile(check))).encode()


def places(axes: list[tuple[float, float]], ends: tuple[float, float], xs: list[float]) -> list[float]:
    """Places on a line whose two ends stand at these places."""
    (left, _), (right, _) = axes[0], axes[-1]
    return [ends[0] + (x - left) / (right - left) * (ends[1] - ends[0]) for x in xs]


class Drawing(unittest.TestCase):
    picture: Picture

    @classmethod
    def setUpClass(cls) -> None:
        told = drawn(LOWBOY, REPORT)
        assert told.returncode == 0, told.stderr
        cls.picture = Picture(told.stdout)

    def near(self, got: list[float], wanted: list[float]) -> None:
        self.assertEqual(len(got), len(wanted))
        for mine, its in zip(got, wanted):
            self.assertAlmostEqual(mine, its, delta=0.01)

    def column(self, number: int) -> float:
        """Where the column of an axle stands: the end of its line to the axle."""
        return self.picture.line(f"leader-{number}")[-1][0]

    def test_axles_stand_at_their_places(self) -> None:
        xs = [self.picture.mark(f"axle-{number}")[0] for number in (1, 2, 3)]
        self.near(places(self.picture.line("deck"), (0, 234), xs), [0, 180, 234])

    def test_length_and_height_are_drawn_to_scale(self) -> None:
        # the outline is that of 780 by 168 in, on the scale of the axles
        outline, deck = self.picture.line("outline"), self.picture.line("deck")
        inch = (deck[1][0] - deck[0][0]) / 234
        xs, ys = [x for x, _ in outline], [y for _, y in outline]
        self.near([(max(xs) - min(xs)) / inch, (max(ys) - min(ys)) / inch], [780, 168])
        self.assertEqual(self.picture.text("length"), "780 in (65 ft) long")
        self.assertEqual(self.picture.text("height"), "168 in high162 allowed")

    def test_weights_places_and_spacings_are_those_of_the_file(self) -> None:
        wanted = {"number": ["1", "2", "3"], "weight": ["12,000", "30,000", "30,000"], "place": ["0", "180", "234"]}
        for name, texts in wanted.items():
            self.assertEqual([self.picture.text(f"{name}-{number}") for number in (1, 2, 3)], texts)
        self.assertEqual([self.picture.text(f"spacing-{number}") for number in (1, 2)], ["180", "54"])
        self.assertIn("LOWBOY of ACME: 3 axles, 72,000 lb", self.picture.text("title"))
        self.assertEqual("".join(self.picture.root.itertext()).count("direction of travel"), 3)

    def test_each_group_over_its_limit_has_a_bracket(self) -> None:
        for number, (first, last) in ((1, (1, 3)), (2, (2, 2)), (3, (2, 3)), (4, (3, 3))):
            xs = [x for x, _ in self.picture.line(f"over-{number}")]
            self.assertLess(xs[0], self.column(first))
            self.assertGreater(xs[-1], self.column(last))
            others = [self.column(axle) for axle in (1, 2, 3) if not first <= axle <= last]
            self.assertFalse([x for x in others if xs[0] <= x <= xs[-1]])
        texts = [self.picture.text(f"over-text-{number}") for number in (1, 2, 3, 4)]
        # 60,000 / 34,000 = 1.7647
        self.assertEqual(texts[2], "axles 2 to 3: 60,000 lb, 34,000 allowed (tandem), 176.5 %")
        self.assertNotIn("over-5", self.picture.parts)

    def test_the_table_says_what_each_span_is(self) -> None:
        # 6,752,109.375 / 12,000 = 562.7 kip-ft, of 1.25 * 449.8; 62.775 kips, of 1.25 * 55.2 = 69
        row = [self.picture.text(f"row-1-{column}") for column in range(1, 11)]
        self.assertEqual(
            row, ["1", "480 in (40 ft)", "1,250", "562.7", "100.1", "62.8", "91.0", "1,251", "moment", "moment over"]
        )
        row = [self.picture.text(f"row-2-{column}") for column in range(3, 11)]
        # 6,752,109.375 / (1.251 * 5,397,600) = 0.99996
        self.assertEqual(row, ["1,251", "562.7", "99.996", "62.8", "90.9", "1,251", "moment", "carried"])

    def test_the_truck_stands_where_the_moment_is_greatest(self) -> None:
        xs = [self.picture.mark(f"probe-1-moment-axle-{number}")[0] for number in (1, 2, 3)]
        span = self.picture.line("probe-1-moment-span")
        self.near(places(span, (0, 480), xs), [63.75, 243.75, 297.75])

    def test_the_truck_stands_where_the_shear_is_greatest(self) -> None:
        xs = [self.picture.mark(f"probe-1-shear-axle-{number}")[0] for number in (1, 2, 3)]
        self.near(places(self.picture.line("probe-1-shear-span"), (0, 480), xs), [246, 426, 480])

    def test_the_influence_lines_are_those_of_the_section_and_the_support(self) -> None:
        corners = self.picture.line("probe-1-influence")
        self.near(places(corners, (0, 480), [corners[1][0]]), [243.75])
        # 243.75 * 236.25 / 480 in at the section; at the first axle 63.75 * 236.25 / 480
        high = corners[0][1] - corners[1][1]
        ordinate = self.picture.line("probe-1-ordinate-1")
        self.assertAlmostEqual((ordinate[0][1] - ordinate[1][1]) / high, 63.75 / 243.75, delta=0.0005)
        values = [self.picture.text(f"probe-1-value-{number}") for number in (1, 2, 3)]
        # and 243.75 * 182.25 / 480 at the third one
        self.assertEqual(values, ["31.4", "120.0", "92.5"])
        # the axles at 246, 426 and 480 in: 246 / 480 and 426 / 480 of the right reaction
        values = [self.picture.text(f"probe-1-reaction-value-{number}") for number in (1, 2, 3)]
        self.assertEqual(values, ["0.513", "0.888", "1.000"])

    def test_the_envelope_touches_the_greatest_moment_at_its_section(self) -> None:
        line = self.picture.line("probe-1-envelope")
        peak = self.picture.mark("probe-1-peak")
        self.assertAlmostEqual(min(y for _, y in line), peak[1], delta=0.01)
        self.near(places(line, (0, 480), [peak[0]]), [243.75])
        # HS20-44 times 1.25 reaches 5,397,600 * 1.25, and the truck 6,752,109.375
        design = self.picture.line("probe-1-design")
        zero = line[0][1]
        part = (zero - min(y for _, y in design)) / (zero - peak[1])
        self.assertAlmostEqual(part, 5397600 * 1.25 / 6752109.375, delta=0.002)

    def test_says_of_each_span_what_carries_and_what_governs(self) -> None:
        self.assertEqual(
            self.picture.text("probe-1-title"), "Span 1: 480 in (40 ft), rating 1,250: the moment is over the rating"
        )
        self.assertIn("the rating carries the truck", self.picture.text("probe-2-title"))
        # 1.25 * 449.8 = 562.25
        self.assertEqual(
            self.picture.text("probe-1-line-1"),
            "Moment 562.7 kip-ft, at axle 2: 100.1 % of what the rating carries, 562.3 kip-ft (of the HS20-44 truck)",
        )
        self.assertIn("least rating that carries it is 1,251: the moment governs", self.picture.text("probe-1-line-3"))

    def test_exact_fractions_come_last(self) -> None:
        texts = list(self.picture.root.itertext())
        self.assertEqual([text for text in texts if re.search("[0-9]/[0-9]", text) and "Exactly" not in text], [])
        self.assertIn("Exactly: moment 54016875/8 lb in", self.picture.text("probe-1-exactly-1"))
        order = list(self.picture.parts)
        self.assertGreater(order.index("probe-1-exactly-1"), order.index("probe-1-percent-2"))

    def test_nothing_stands_on_the_line_of_the_limit(self) -> None:
        for number in (1, 2):
            order = list(self.picture.parts)
            limit = self.picture.line(f"probe-{number}-all")[0][0]
            for row in (1, 2):
                # the bar lies below the line, and the number right of it
                self.assertLess(order.index(f"probe-{number}-part-{row}"), order.index(f"probe-{number}-all"))
                self.assertGreater(self.picture.place(f"probe-{number}-percent-{row}")[0], limit + 2)

    def test_the_same_files_give_the_same_picture(self) -> None:
        for kind in ("svg", "pdf"):
            self.assertEqual(drawn(LOWBOY, REPORT, "-f", kind).stdout, drawn(LOWBOY, REPORT, "-f", kind).stdout)

    def test_draws_every_example_in_each_format(self) -> None:
        starts = {"svg": b"<?xml", "pdf": b"%PDF", "png": b"\x89PNG"}
        for file in check_examples():
            for kind, start in starts.items():
                told = ran("truck", file, file.with_suffix(".report"), "--format", kind)
                self.assertEqual((told.returncode, told.stderr), (0, b""), file.name)
                self.assertTrue(told.stdout.startswith(start), kind)


class Sheets(unittest.TestCase):
    def test_each_sheet_is_a_page_of_letter_size(self) -> None:
        pdf = drawn(LOWBOY, REPORT, "-f", "pdf").stdout
        self.assertEqual(len(re.findall(rb"/Type /Page\b", pdf)), 3)
        self.assertEqual(set(re.findall(rb"/MediaBox \[ (.*?) \]", pdf)), {b"0 0 792 612"})

    def test_one_sheet_alone(self) -> None:
        whole, one = (Picture(drawn(LOWBOY, REPORT, *words).stdout) for words in ((), ("--sheet", "2")))
        self.assertEqual(whole.root.get("height"), "1836pt")
        self.assertEqual(one.root.get("height"), "612pt")
        self.assertIn("probe-1-title", one.parts)
        self.assertNotIn("title", one.parts)
        self.assertNotIn("probe-2-title", one.parts)
        for number in ("0", "4", "-1"):
            told = drawn(LOWBOY, REPORT, f"--sheet={number}")
            self.assertEqual((told.returncode, told.stdout), (2, b""))
            self.assertIn(b"the picture has 3", told.stderr)

    def test_a_long_table_goes_on_over_sheets(self) -> None:
        check = b"truck,T,C,150,102,636,0:12000 180:17000,\n" + b"probe,240,1000,,,,,\n" * 30 + b"end,,,,,,,\n"
        report = again(check)
        # 24 rows, then 6 with the truck below them, then 30 spans
        picture = Picture(drawn(check, report, "--sheet", "2").stdout)
        self.assertIn("sheet 2 of 32", "".join(picture.root.itertext()))
        self.assertEqual([name in picture.parts for name in ("row-24-1", "row-25-1", "row-30-1", "deck")],
                         [False, True, True, True])

    def test_axles_an_inch_apart_do_not_overlap(self) -> None:
        axles = " ".join(f"{at}:{9000 + at}" for at in range(32))
        check = f"truck,ABCDEFGHIJKLMNOP,QRSTUVWXYZ_01234,999,999,9999,{axles},\nprobe,480,1300,,,,,\nend,,,,,,,\n"
        picture = Picture(drawn(check.encode(), again(check.encode())).stdout)
        columns = [picture.line(f"leader-{number}")[-1][0] for number in range(1, 33)]
        self.assertGreater(min(b - a for a, b in zip(columns, columns[1:])), 14)
        numbers = [picture.place(f"probe-1-moment-number-{number}")[0] for number in range(1, 33)]
        self.assertGreater(min(b - a for a, b in zip(numbers, numbers[1:])), 11)
        wheels = [[x for x, _ in picture.corners(f"wheel-{number}")] for number in range(1, 33)]
        for before, behind in zip(wheels, wheels[1:]):
            self.assertLess(max(before), min(behind))
        texts = "".join(picture.root.itertext())
        self.assertIn("Truck ABCDEFGHIJKLMNOP of QRSTUVWXYZ_01234: 32 axles", texts)
        self.assertIn("more are over their limits", texts)

    def test_a_rating_of_nothing(self) -> None:
        check = LOWBOY.replace(b"480,1250", b"480,0")
        picture = Picture(drawn(check, again(check)).stdout)
        self.assertEqual(picture.text("probe-1-percent-1"), "nothing is carried")
        self.assertEqual(picture.text("row-1-5"), "-")
        self.assertNotIn("probe-1-all", picture.parts)


class Table(unittest.TestCase):
    def test_the_table_of_check(self) -> None:
        told = drawn(LOWBOY, REPORT, "--table")
        rows = list(csv.reader(told.stdout.decode().splitlines()))
        self.assertEqual(rows[0][:4], ["span", "length (in)", "length (ft)", "rating"])
        loads = ["HS20-44 truck", "HS20-44 truck"]
        exact = ["54016875/8", "62775"]
        self.assertEqual(
            rows[1:],
            [
                ["1", "480", "40.00", "1250", "562.7", "100.1", "62.8", "91.0", "1251", "moment", "moment over", *loads,
                 *exact],
                ["2", "480", "40.00", "1251", "562.7", "99.996", "62.8", "90.9", "1251", "moment", "carried", *loads,
                 *exact],
            ],
        )

    def test_the_table_of_design(self) -> None:
        rows = list(csv.reader(drawn(HS20_CHECK, DESIGN, "--table").stdout.decode().splitlines()))
        # on 150 ft the truck has 29,071,360 of 29,700,000 and 67,520 of 74,000; on 20 ft 1,920,000 of 2,332,800 and
        # 41,600 of 43,200
        self.assertEqual(
            rows[1:],
            [
                ["1", "1800", "150.00", "1000", "2422.6", "97.9", "67.5", "91.2", "979", "moment", "carried",
                 "lane load", "lane load", "29071360", "67520"],
                ["2", "240", "20.00", "1000", "160.0", "82.3", "41.6", "96.3", "963", "end shear", "carried",
                 "military loading", "military loading", "1920000", "41600"],
            ],
        )

    def test_the_table_of_a_convoy(self) -> None:
        rows = list(csv.reader(drawn(CONVOY_CHECK, CONVOY, "--table").stdout.decode().splitlines()))
        # 2,211,840 of 1.152 * 1,920,000 is all; 42,400 of 1.152 * 41,600 is 0.8847
        self.assertEqual(rows[1][3:11], ["1152", "184.3", "100.0", "42.4", "88.5", "1152", "moment", "carried"])
        self.assertEqual(rows[2][3:11], ["1151", "184.3", "100.1", "42.4", "88.6", "1152", "moment", "moment over"])

    def test_a_part_is_never_a_hundred_where_it_is_not(self) -> None:
        for part, text in (
            (Fraction(1), "100.0"),
            (Fraction(100001, 100000), "100.001"),
            (Fraction(99999, 100000), "99.999"),
            (Fraction(10**9 + 1, 10**9), "just over 100"),
            (Fraction(10**9 - 1, 10**9), "just under 100"),
            (Fraction(1, 3), "33.3"),
            (None, "-"),
        ):
            self.assertEqual(percent(part), text)

    def test_a_half_is_rounded_up(self) -> None:
        self.assertEqual([rounded(Fraction(it, 20), 1) for it in (1, 3, 5)], ["0.1", "0.2", "0.3"])
        self.assertEqual(rounded(Fraction(12345678, 10), 0), "1,234,568")


class OtherReports(unittest.TestCase):
    """Pictures of reports of design and convoy."""

    def test_design(self) -> None:
        picture = Picture(drawn(HS20_CHECK, DESIGN).stdout)
        self.assertIn("97.9 % of what the rating carries, 2,475.0 kip-ft (of the lane load)",
                      picture.text("probe-1-line-1"))
        self.assertIn("(of the military loading)", picture.text("probe-2-line-2"))
        # the lane load is the greatest at midspan: the curve reaches 29,700,000 where the truck has 29,071,360
        line, design = picture.line("probe-1-envelope"), picture.line("probe-1-design")
        parts = [line[0][1] - min(y for _, y in curve) for curve in (line, design)]
        self.assertAlmostEqual(parts[0] / parts[1], 29071360 / 29700000, delta=0.0005)

    def test_convoy(self) -> None:
        picture = Picture(drawn(CONVOY_CHECK, CONVOY).stdout)
        self.assertEqual(picture.text("title"), "2 trucks HS20 of ACME, 48 in or more apart: 6 axles, 144,000 lb")
        xs = [picture.mark(f"axle-{number}")[0] for number in range(1, 7)]
        deck = picture.line("deck")
        self.assertEqual([round(at) for at in places(deck, (0, 336), xs)], [0, 168, 336, 384, 552, 720])
        # docs/ENGINEER.md: the third axle at 115.2 in, so that the fourth stands at 163.2 in
        span = picture.line("probe-1-moment-span")
        at = places(span, (0, 240), [picture.mark(f"probe-1-moment-axle-{number}")[0] for number in (3, 4)])
        self.assertAlmostEqual(at[0], 115.2, delta=0.01)
        self.assertAlmostEqual(at[1], 163.2, delta=0.01)
        self.assertIn("the rating carries the convoy", picture.text("probe-1-title"))

    def test_without_a_probe_there_is_the_truck_alone(self) -> None:
        check = LOWBOY[:LOWBOY.index(b"probe")] + b"end,,,,,,,\n"
        picture = Picture(drawn(check, REPORT[:REPORT.index(b"span")]).stdout)
        self.assertEqual(picture.root.get("height"), "612pt")
        self.assertIn("axle-3", picture.parts)
        told = drawn(check, b"convoy 2 gap 48 axles 6 gross 144000\n")
        self.assertEqual((told.returncode, Picture(told.stdout).text("truck-2")), (0, "2"))

    def test_each_example(self) -> None:
        for name in ("three-loads.design", "two-trucks.convoy"):
            report = EXAMPLES / name
            told = ran("truck", report.with_suffix(".csv"), report)
            self.assertEqual((told.returncode, told.stderr), (0, b""))

    def test_reports_of_other_files(self) -> None:
        told = drawn(HS20_CHECK, DESIGN.replace(b"lane", b"truck", 1))
        self.assertEqual((told.returncode, told.stdout), (5, b""))
        self.assertIn(b"line 2 is moment 29700000/1 truck, and would be moment 29700000/1 lane", told.stderr)
        told = drawn(CONVOY_CHECK, CONVOY.replace(b"gap 48", b"gap 47", 1))
        self.assertEqual((told.returncode, told.stdout), (5, b""))
        for head in (b"convoy 12 gap 48", b"convoy 1 gap 48", b"convoy 2 gap 0", b"convoy 99 gap 1"):
            told = drawn(CONVOY_CHECK, CONVOY.replace(b"convoy 2 gap 48", head))
            self.assertEqual((told.returncode, told.stdout), (5, b""))
            self.assertIn(b"there is no convoy of", told.stderr)
        for report in (b"span 1800\n", DESIGN[:-1], DESIGN + b"more\n", DESIGN.replace(b"29700000/1", b"1/0")):
            self.assertEqual(drawn(HS20_CHECK, report).returncode, 5)


class Outputs(unittest.TestCase):
    """An output is written whole or not at all, and never onto an input."""

    def setUp(self) -> None:
        self.folder = tempfile.TemporaryDirectory()
        self.check, self.report = (pathlib.Path(self.folder.name, name) for name in ("a.csv", "a.svg"))
        self.check.write_bytes(LOWBOY)
        self.report.write_bytes(REPORT)

    def tearDown(self) -> None:
        self.folder.cleanup()

    def test_never_onto_an_input(self) -> None:
        link = pathlib.Path(self.folder.name, "link.svg")
        link.symlink_to(self.report)
        for output in (self.report, link, pathlib.Path(self.folder.name, ".", "a.svg")):
            told = ran("truck", self.check, self.report, "-o", output)
            self.assertEqual((told.returncode, told.stdout), (2, b""))
            self.assertIn(b"is the input", told.stderr)
            self.assertEqual(self.report.read_bytes(), REPORT)
        told = ran("truck", self.check, self.report, "--table", "-o", self.check)
        self.assertEqual((told.returncode, self.check.read_bytes()), (2, LOWBOY))

    def test_a_full_disk_leaves_the_old_picture(self) -> None:
        if not pathlib.Path("/dev/full").exists():
            return
        told = ran("truck", self.check, self.report, "-f", "svg", "-o", "/dev/full")
        self.assertEqual(told.returncode, 4)
        self.assertEqual(told.stderr, b"truck: /dev/full cannot be written: No space left on device\n")
        old = pathlib.Path(self.folder.name, "old.svg")
        old.write_bytes(b"old")
        limited = 'ulimit -f 8; trap "" XFSZ; exec "$0" "$@"'
        words = ["sh", "-c", limited, str(VIEW / "truck"), str(self.check), str(self.report), "-o", str(old)]
        told = subprocess.run(words, capture_output=True)
        self.assertEqual((told.returncode, old.read_bytes()), (4, b"old"), told.stderr)
        self.assertEqual(sorted(os.listdir(self.folder.name)), ["a.csv", "a.svg", "old.svg"])

    def test_names_with_control_characters_are_escaped(self) -> None:
        name = os.path.join(self.folder.name, "none\x1b[2J", "a.svg")
        told = ran("truck", self.check, self.report, "-o", name)
        self.assertEqual(told.returncode, 4)
        self.assertNotIn(b"\x1b", told.stderr)
        self.assertIn(b"none\\x1b[2J", told.stderr)
        told = ran("truck", self.check, "no\nsuch\x07report")
        self.assertEqual((told.returncode, told.stderr.count(b"\n")), (3, 1))
        self.assertIn(b"no\\nsuch\\x07report cannot be read", told.stderr)

    def test_no_memory_is_a_line_and_a_status(self) -> None:
        for kilobytes in (40_000, 60_000, 86_000):
            limited = f'ulimit -v {kilobytes}; exec "$0" "$@"'
            words = ["sh", "-c", limited, str(VIEW / "truck"), str(self.check), str(self.report)]
            told = subprocess.run(words, capture_output=True)
            self.assertEqual((told.returncode, told.stdout, told.stderr.count(b"\n")), (7, b"", 1), told.stderr)
            self.assertIn(b"there was no memory", told.stderr)


class Loading(unittest.TestCase):
    def test_columns_move_as_little_as_it_takes(self) -> None:
        from office_view.paper import spread

        self.assertEqual(spread([1, 5], 2, 0, 10), [1, 5])
        self.assertEqual(spread([4, 5], 2, 0, 10), [3.5, 5.5])
        self.assertEqual(spread([0, 0, 0], 2, 0, 10), [0, 2, 4])
        self.assertEqual(spread([9, 10, 10], 2, 0, 10), [6, 8, 10])
        # where there is no room for that
        self.assertEqual(spread([1, 1, 1], 20, 0, 10), [0, 5, 10])

    def test_one_pair_by_hand(self) -> None:
        # 10,000 lb 60 in in front of 20,000 lb on 240 in; at midspan the heavy one there, the other 60 in from an end
        self.assertEqual(greatest_at([(0, 10000), (60, 20000)], 240, Fraction(120)), 20000 * 60 + 10000 * 30)
        # at 40 in: the heavy one there gives 20000 * 40 * 200 / 240, and the other is off the span
        one_way = greatest_at([(0, 10000), (60, 20000)], 240, Fraction(40))
        # the light one there: 10000 * 40 * 200 / 240 and 20000 * 40 * 140 / 240
        self.assertEqual(one_way, Fraction(10000 * 40 * 200 + 20000 * 40 * 140, 240))
        # the other way round: the heavy one there, and the light one 60 in further on
        both = dict(envelope([(0, 10000), (60, 20000)], 240, [Fraction(40), Fraction(200)]))
        self.assertEqual(both[Fraction(40)], Fraction(20000 * 40 * 200 + 10000 * 40 * 140, 240))

    def test_no_section_exceeds_the_peak(self) -> None:
        for inches in (100, 240, 480, 1200):
            for axles in (HS20, [(0, 12000), (180, 30000), (234, 30000)], [(0, 9000), (40, 9000)]):
                most, where = peak_moment(axles, inches)
                section = Fraction(where[5], where[3])
                line = dict(envelope(axles, inches, sections(inches, section)))
                self.assertEqual(max(line.values()), most)
                self.assertEqual(line[section], most)

    def test_no_second_spacing_is_worse_than_14_feet(self) -> None:
        for inches in (200, 400, 800, 1500):
            for at in range(1, 24):
                section = Fraction(inches * at, 24)
                least = max(greatest_at(HS20, inches, section), greatest_at(HS20, inches, inches - section))
                for spacing in range(168, 361, 24):
                    longer = [(0, 8000), (168, 32000), (168 + spacing, 32000)]
                    for place in (section, inches - section):
                        self.assertLessEqual(greatest_at(longer, inches, place), least)

    def test_design_loads(self) -> None:
        # the lane load at midspan of 150 ft, as docs/ENGINEER.md has it, and at a quarter: 450 * 1350 of 900 * 900
        self.assertEqual(lane_moment(1800, Fraction(900)), 29_700_000)
        self.assertEqual(lane_moment(1800, Fraction(450)), Fraction(29_700_000 * 3, 4))
        # on 20 ft two axles of 24,000 lb, 48 in apart, are the greatest: the one 12 in left of midspan, at 108 in
        section = Fraction(108)
        self.assertEqual(dict(design_envelope(240, [section, 240 - section], 1000, True))[section], 2_332_800)
        # at midspan the truck's one axle of 32,000 lb makes 1,920,000, and those two 24,000 * (60 + 36)
        self.assertEqual(design_envelope(240, [Fraction(120)], 500)[0][1], 960_000)
        self.assertEqual(design_envelope(240, [Fraction(120)], 1000, True)[0][1], 2_304_000)

    def test_reaction(self) -> None:
        self.assertEqual(reaction(480, Fraction(0), Fraction(120)), Fraction(3, 4))
        self.assertEqual(reaction(480, Fraction(480), Fraction(120)), Fraction(1, 4))
        self.assertEqual(reaction(480, Fraction(480), Fraction(481)), 0)

    def test_influence(self) -> None:
        self.assertEqual(influence(480, Fraction(120), Fraction(120)), 90)
        self.assertEqual(influence(480, Fraction(120), Fraction(300)), 45)
        self.assertEqual(influence(480, Fraction(120), Fraction(481)), 0)


class BadInput(unittest.TestCase):
    def refuses(self, check: bytes, report: bytes, status: int, words: str) -> None:
        told = drawn(check, report)
        self.assertEqual((told.returncode, told.stdout), (status, b""), told.stderr)
        self.assertEqual(told.stderr.count(b"\n"), 1)
        self.assertIn(words, told.stderr.decode())

    def test_a_report_of_another_file(self) -> None:
        self.refuses(LOWBOY, REPORT.replace(b"54016875/8", b"54016877/8", 1), 5, "line 10 is moment 54016877/8")
        self.refuses(
            LOWBOY.replace(b"480,1251", b"480,1252"),
            REPORT,
            5,
            "line 18 is rating 1251 fits, and would be rating 1252",
        )
        self.refuses(LOWBOY.replace(b"LOWBOY", b"HIGHBOY"), REPORT, 5, "line 1 is truck LOWBOY")
        self.refuses(LOWBOY.replace(b"probe,480,1251,,,,,\n", b""), REPORT, 5, "is not of")

    def test_what_is_no_report(self) -> None:
        self.refuses(LOWBOY, b"refused: record 1 train 1\n", 5, "the line of a refusal: refused: record 1 train 1")
        self.refuses(LOWBOY, b"", 5, "is empty: no report was written, or it is one of design and there are no probes")
        self.refuses(LOWBOY, b"refused: convoy 2\n", 5, "the line of a refusal: refused: convoy 2")
        self.refuses(LOWBOY, REPORT[:-1], 5, "its last line has no line feed")
        self.refuses(LOWBOY, b"permit-journal 1\nend 0\n", 5, "line 1 is no line of the kind truck")
        self.refuses(LOWBOY, REPORT.replace(b"shear", b"sheer", 1), 5, "line 11 is no line of the kind shear")
        self.refuses(LOWBOY, REPORT + b"more\n", 5, "line 19 is no line of the kind span")
        self.refuses(LOWBOY, REPORT.replace(b"54016875/8", b"5/0", 1), 5, "is over zero")
        huge = REPORT.replace(b"54016875/8", b"9" * 5000 + b"/8", 1)
        self.refuses(LOWBOY, huge, 5, "line 10 is no line of the kind moment")

    def test_a_refused_check_file(self) -> None:
        self.refuses(b"day,2026-03-02,,,,,,\nend,,,,,,,\n", REPORT, 5, "is no check file (refused: record 1 kind)")

    def test_a_missing_package(self) -> None:
        with tempfile.TemporaryDirectory() as folder:
            pathlib.Path(folder, "matplotlib.py").write_text("raise ModuleNotFoundError\n")
            pathlib.Path(folder, "check.csv").write_bytes(LOWBOY)
            told = ran(
                "truck", f"{folder}/check.csv", "-", data=REPORT, env={"PYTHONPATH": folder, "PATH": "/usr/bin"}
            )
        self.assertEqual((told.returncode, told.stdout), (2, b""))
        self.assertEqual(
            told.stderr, b"truck: matplotlib is not installed: install the Debian package python3-matplotlib\n"
        )

    def test_words_that_ask_for_nothing(self) -> None:
        self.assertEqual(ran("truck").returncode, 2)
        told = drawn(LOWBOY, REPORT, "--output", "/tmp/picture.jpg")
        self.assertEqual((told.returncode, told.stdout), (2, b""))
        told = drawn(LOWBOY, REPORT, "--output", "/no/such/folder/picture.svg")
        self.assertEqual(told.returncode, 4)


if __name__ == "__main__":
    unittest.main()
