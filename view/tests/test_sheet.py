"""Tests of view/sheet: what is said of each row, and how it ends."""
import pathlib
import subprocess
import tempfile
import unittest

from support import EXAMPLES, VIEW, check_examples, day_examples, ran

# a good day in which something of each kind stands; tests say its rows by their numbers
GOOD = b"""day,2026-03-02,,,,,,
node,DEPOT,,,,,,
node,CREEK,,,,,,
node,PLANT,,,,,,
segment,US20-E,DEPOT,CREEK,26400,,,
segment,US20-W,CREEK,DEPOT,26400,,,
segment,SR7-N,CREEK,PLANT,15840,,,
segment,SR7-S,PLANT,CREEK,15840,,,
segment,RING-E,DEPOT,PLANT,63360,,,
limit,SR7-N,height,172,,,,
limit,RING-E,gross,150000,,,,
span,MILL-BR,US20-E,480,1300,,,
truck,LOWBOY,ACME,168,120,780,0:12000 180:30000 234:30000,
truck,VAN,BOLT,160,102,636,0:12000 180:17000 228:17000,
actor,ann,,,,,,
apply,ann,VAN,DEPOT,PLANT,,2026-03-02,2026-03-06
apply,ann,LOWBOY,DEPOT,PLANT,,2026-03-02,2026-03-06
post,ann,MILL-BR,rating,1250,,,
show,ann,1,,,,,
apply,ann,LOWBOY,DEPOT,PLANT,US20-E SR7-N,2026-03-03,2026-03-06
apply,ann,LOWBOY,DEPOT,PLANT,,2026-03-03,2026-03-06
post,ann,RING-E,closed,1,,,
apply,ann,LOWBOY,DEPOT,PLANT,,2026-03-03,2026-03-06
apply,ann,LOWBOY,PLANT,DEPOT,,2026-03-03,2026-03-06
post,ann,RING-E,closed,0,,,
apply,ann,LOWBOY,DEPOT,PLANT,,2026-03-03,2026-03-06
setday,ann,2026-03-04,,,,,
apply,ann,LOWBOY,DEPOT,PLANT,,2026-03-03,2026-03-06
surrender,ann,4,,,,,
show,ann,4,,,,,
end,,,,,,,
"""
# a road in both directions, with a bridge on both
TWO_WAYS = b"""day,2026-03-02,,,,,,
node,A,,,,,,
node,B,,,,,,
segment,S-E,A,B,26400,,,
segment,S-W,B,A,26400,,,
span,MILL-E,S-E,480,1300,,,
span,MILL-W,S-W,480,1300,,,
truck,VAN,BOLT,170,102,636,0:12000 180:17000 228:17000,
actor,ann,,,,,,
apply,ann,VAN,A,B,,2026-03-02,2026-03-06
apply,ann,VAN,B,A,,2026-03-02,2026-03-06
post,ann,S-E,closed,1,,,
post,ann,S-W,closed,1,,,
show,ann,2,,,,,
end,,,,,,,
"""
HARD_SPACE = "\u00a0".encode()


def sheet(data: bytes, *words: str) -> tuple[int, list[str]]:
    told = ran("sheet", *words, "-", data=data)
    return told.returncode, told.stdout.decode().split("\n")[:-1]


class Refusals(unittest.TestCase):
    def test_refuses_each_refused_example_by_its_own_line(self) -> None:
        # a file that `convoy` refuses is a good check file
        lines = sorted(line for word in ("check", "day") for line in (EXAMPLES / "refused" / word).glob("*.line"))
        tried = 0
        for line in lines:
            file = line.with_suffix(".csv")
            if file.exists():
                wanted = line.read_text().strip()
                status, said = sheet(file.read_bytes(), "--" + line.parent.name)
                self.assertEqual(said[-1], "the office would write: " + wanted, file.name)
                too_many = wanted.split()[-1] in ("spans-of-segment", "trucks", "actors", "probes")
                self.assertEqual(status, 6 if too_many else 5, file.name)
                tried += 1
        self.assertGreater(tried, 30)

    def test_takes_each_good_example(self) -> None:
        for file in day_examples() + check_examples():
            status, said = sheet(file.read_bytes())
            self.assertEqual((status, said[-1]), (0, "the office takes this file"), file.name)

    def test_names_a_carrier_with_a_space(self) -> None:
        status, said = sheet(GOOD.replace(b",ACME,", b",ACME Inc,"), "--no-warnings")
        self.assertEqual(status, 5)
        self.assertEqual(
            said,
            [
                'row 13, column C "ACME Inc": a carrier is a name: letters, digits, - and _, no spaces',
                "the office would write: refused: record 13 field 3",
            ],
        )

    def test_says_what_is_wrong_with_several_routes(self) -> None:
        asked = b"US20-E SR7-N,2026-03-03,2026-03-06"
        self.assertIn(asked, GOOD)
        cases = {
            "a bar stands at an end, or two stand side by side": (b"US20-E SR7-N|", 6, b"2026-03-06"),
            "here is a space beside a bar": (b"US20-E SR7-N | RING-E", 6, b"2026-03-06"),
            "has at most 8 routes, and here are 9": (b"|".join([b"RING-E"] * 9), 6, b"2026-03-06"),
            "one bar | between two routes": (b"US20-E SR7-N/RING-E", 6, b"2026-03-06"),
            "no segment above is called RING": (b"US20-E SR7-N|RING", 6, b"2026-03-06"),
            "one of the routes is no walk": (b"US20-E SR7-N|US20-E", 6, b"2026-03-06"),
            "its last day at most 365 days after its first": (b"US20-E SR7-N|RING-E", 8, b"2027-03-04"),
        }
        for words, (routes, column, last) in cases.items():
            _, said = sheet(GOOD.replace(asked, routes + b",2026-03-03," + last), "--no-warnings")
            self.assertEqual(len(said), 2, said)
            self.assertTrue(said[0].startswith(f"row 20, column {'ABCDEFGH'[column - 1]} "), said[0])
            self.assertIn(words, said[0])
        _, said = sheet(GOOD.replace(asked, b"|".join([b"RING-E"] * 8) + b",2026-03-03,2027-03-03"), "--no-warnings")
        self.assertEqual(said, ["the office takes this file"])

    def test_bars_between_routes_are_no_separators_of_columns(self) -> None:
        row = b"apply,ann,LOWBOY,DEPOT,PLANT,RING-E|RING-E|RING-E|RING-E,2026-03-03\n"
        _, said = sheet(GOOD.replace(b"end,", row + b"end,"), "--no-warnings")
        self.assertIn("commas are missing", said[0])
        _, said = sheet(GOOD.replace(b",", b"|"), "--no-warnings")
        self.assertIn("the columns are separated by bars", said[0])

    def test_names_every_row_and_every_column_that_is_bad(self) -> None:
        data = (
            GOOD.replace(b"26400", b'"26,400"')
            .replace(b"480,1300", b"4800000,1300 ")
            .replace(b"2026-03-06", b"3/6/26", 1)
        )
        _, said = sheet(data, "--no-warnings")
        self.assertEqual(
            [line.split(":")[0] for line in said],
            [
                'rows 5 and 6, column E "26,400"',
                'row 12, column E "1300 "',
                'row 12, column D "4800000"',
                'row 16, column H "3/6/26"',
                "in all 5 mistakes in 4 rows",
                "the office would write",
            ],
        )
        self.assertIn("has no separators: write 26400", said[0])
        self.assertIn("is 1 to 6,000", said[2])
        self.assertIn("YYYY-MM-DD", said[3])

    def test_does_not_name_rows_for_a_name_that_a_refused_row_defines(self) -> None:
        _, said = sheet(GOOD.replace(b"node,CREEK,,", b"nodes,CREEK,,"), "--no-warnings")
        self.assertEqual(len(said), 2, said)
        _, said = sheet(GOOD.replace(b"DEPOT,CREEK,26400", b"DEPOT,CREEK,26400 ft"), "--no-warnings")
        self.assertEqual(len(said), 2, said)

    def test_says_where_a_name_is_defined_further_below(self) -> None:
        rows = GOOD.split(b"\n")
        rows[2], rows[4] = rows[4], rows[2]
        _, said = sheet(b"\n".join(rows), "--no-warnings")
        self.assertIn("the node CREEK is defined further below, in row 5", said[0])

    def test_names_what_spreadsheets_do(self) -> None:
        cases = {
            "semicolons": GOOD.replace(b",", b";"),
            "tabs": GOOD.replace(b",", b"\t"),
            "UTF-16": GOOD.decode().encode("utf-16"),
            "Windows-1252": GOOD.replace(b"ACME", "MÜLLER".encode("latin-1"), 1),
            "an empty row": GOOD.replace(b"node,CREEK", b",,,,,,,\nnode,CREEK"),
            "workbook": b"PK\x03\x04 and more",
            "gzip": b"\x1f\x8b\x08 and more",
            "row of headings": b"kind,name,,,,,,\n" + GOOD,
            "small letters": GOOD.replace(b"node,CREEK", b"Node,CREEK"),
            "commas are missing": GOOD.replace(b"node,CREEK,,,,,,", b"node,CREEK,,,,,"),
            "a comma too many": GOOD.replace(b"node,CREEK,,,,,,", b"node,CREEK,,,,,,,"),
            "a quote is opened": GOOD.replace(b"node,CREEK", b'node,"CREEK'),
            "the file is empty": b"",
        }
        for words, data in cases.items():
            status, said = sheet(data, "--day", "--no-warnings")
            self.assertEqual(status, 5, words)
            self.assertIn(words, said[0], said[0])

    def test_says_the_line_of_the_file_where_it_is_another(self) -> None:
        _, said = sheet(b"\n\n" + GOOD.replace(b",ACME,", b",ACME Inc,"))
        self.assertTrue(said[0].startswith("row 13 (line 15 of the file), column C"), said[0])

    def test_escapes_what_a_terminal_would_obey(self) -> None:
        told = ran("sheet", "-", data=GOOD.replace(b",ACME,", b",\x1b[2J\xe2\x80\xae,"))
        self.assertNotIn(b"\x1b", told.stdout)
        self.assertNotIn("\u202e".encode(), told.stdout)
        self.assertIn(b'column C "\\x1b[2J\\u202e"', told.stdout)


class Mended(unittest.TestCase):
    """A malformed cell that defines a name counts as mended for the rows below."""

    def test_a_cell_that_defines_a_name_is_named_alone(self) -> None:
        cells = {
            b"ann" + HARD_SPACE: "a hard space stands behind it, which no eye sees: write ann",
            b"ann ": "a blank stands behind it, which no eye sees: write ann",
            b"'ann": "an apostrophe stands in front",
            b"": "the name of an actor is missing",
            "\u200bann".encode(): "a letter stands in it that no eye sees: write ann",
        }
        for cell, words in cells.items():
            _, said = sheet(GOOD.replace(b"actor,ann,", b"actor," + cell + b","), "--no-warnings")
            self.assertEqual(len(said), 2, said)
            self.assertTrue(said[0].startswith("row 15, column B "), said[0])
            self.assertIn(words, said[0])

    def test_a_name_that_is_too_long_or_has_another_letter(self) -> None:
        for cell, used in ((b"CREEKSIDE-AND-MILL-POND", b"CREEK"), ("CRÉEK".encode(), b"CREEK"), (b"CR.K", b"CREEK")):
            data = GOOD.replace(b"CREEK", used).replace(b"node," + used, b"node," + cell)
            _, said = sheet(data, "--no-warnings")
            self.assertEqual(len(said), 2, said)
            self.assertTrue(said[0].startswith("row 3, column B "), said[0])

    def test_another_name_is_still_named(self) -> None:
        data = GOOD.replace(b"actor,ann,", b"actor,ann" + HARD_SPACE + b",").replace(b"show,ann,1,", b"show,bob,1,")
        _, said = sheet(data, "--no-warnings")
        self.assertEqual([line[:6] for line in said], ["row 15", "row 19", "in all", "the of"])
        self.assertIn("no actor above is called bob", said[1])

    def test_a_name_that_is_there_already_is_named_alone(self) -> None:
        # CREEK was copied from DEPOT and not renamed
        _, said = sheet(GOOD.replace(b"node,CREEK", b"node,DEPOT"), "--no-warnings")
        self.assertEqual(len(said), 2, said)
        self.assertTrue(said[0].startswith('row 3, column B "DEPOT": there is a node DEPOT already, in row 2'), said[0])
        # a row too few stands in for one name, and not for two
        _, said = sheet(GOOD.replace(b"node,CREEK", b"node,DEPOT").replace(b"node,PLANT,,,,,,\n", b""), "--no-warnings")
        self.assertIn("no node above is called PLANT", "".join(said))

    def test_rows_that_are_no_records_define_too(self) -> None:
        cases = {
            "the text is not in UTF-8": GOOD.replace(b"LOWBOY,ACME", b"LOWBOY,M\xdcLLER"),
            "separated by semicolons": GOOD.replace(b"node,CREEK,,,,,,", b"node;CREEK;;;;;;"),
            "a quote is opened": GOOD.replace(b"node,CREEK", b'"node,CREEK'),
            "written in small letters: write node": GOOD.replace(b"node,CREEK", b"Node,CREEK"),
        }
        for words, data in cases.items():
            _, said = sheet(data, "--no-warnings")
            self.assertEqual(len(said), 2, said)
            self.assertIn(words, said[0])

    def test_refused_applications_count_where_permits_are_numbered(self) -> None:
        # the fourth permit is that of the fourth application, of which the first is refused here
        rows = [b"apply,ann,VAN,A,B,,2026-03-02,3/6/26", b"show,ann,3,,,,,", b"show,ann,4,,,,,", b"end,"]
        _, said = sheet(TWO_WAYS.replace(b"end,", b"\n".join(rows), 1))
        warned = [line for line in said if "no permit has this number" in line]
        self.assertEqual(len(warned), 1, said)
        self.assertIn('row 17, column C "4"', warned[0])
        self.assertIn("above are 3 applications", warned[0])

    def test_a_refused_actor_works_at_once_with_the_others(self) -> None:
        _, said = sheet(TWO_WAYS.replace(b"actor,ann,", b"actor,b b,,,,,,\nactor,ann,"))
        self.assertIn("2 actors work at once", "".join(said))

    def test_behind_a_refused_day_no_day_is_known(self) -> None:
        later = b"apply,ann,VAN,A,B,,2026-03-03,2026-03-06\n"
        for day, is_warned in ((b"2026-03-05", True), (b"3/5/26", False)):
            _, said = sheet(TWO_WAYS.replace(b"end,", b"setday,ann," + day + b",,,,,\n" + later + b"end,"))
            self.assertEqual("the answer will be late" in "".join(said), is_warned, said)


class Whole(unittest.TestCase):
    """What is said of a file as a whole is all that is said."""

    def test_a_verdict_on_the_file_ends_the_list(self) -> None:
        cases = {
            "this is a workbook of a spreadsheet (xlsx, ods)": b"PK\x03\x04" + bytes(range(256)) * 40,
            "this is a workbook of an old spreadsheet": b"\xd0\xcf\x11\xe0" + bytes(range(256)) * 40,
            "compressed by gzip": b"\x1f\x8b\x08" + b"\n,,\n" * 90,
            "this is a picture": b"\x89PNG\r\n\x1a\n" + b"\n,,\n" * 90,
            "in HTML or XML": b"<!DOCTYPE html>\n<html><table>\n" + GOOD,
            "the text is in UTF-16": GOOD.decode().encode("utf-16"),
            "the text is in UTF-16, not in UTF-8": GOOD.decode().encode("utf-16-be"),
            "separated by semicolons: save the sheet with the comma as separator": GOOD.replace(b",", b";"),
            "separated by tabs": GOOD.replace(b",", b"\t"),
            "separated by bars": GOOD.replace(b",", b"|"),
            "and the first line sep=; is no row": b"sep=;\r\n" + GOOD.replace(b",", b";"),
            "separated by tabs: save the sheet with the comma as separator, and the first line sep=\\t is no row": (
                b"sep=\t\r\n" + GOOD.replace(b",", b"\t")
            ),
            "each row stands in one cell": b"".join(b'"%s"\n' % line for line in GOOD.split()),
            "the rows were sorted by column A": b"\n".join(sorted(GOOD.split(b"\n")[:-1])),
        }
        for words, data in cases.items():
            status, said = sheet(data, "--day")
            self.assertEqual((status, len(said)), (5, 2), said)
            self.assertIn(words, said[0])
            self.assertTrue(said[1].startswith("the office would write: refused: record 1 "), said)

    def test_a_file_of_a_byte_too_many(self) -> None:
        more = GOOD + b"\n" * (4194304 - len(GOOD))
        self.assertEqual(sheet(more, "--no-warnings"), (0, ["the office takes this file"]))
        with tempfile.NamedTemporaryFile() as file:
            file.write(more + b"\n")
            file.flush()
            told = ran("sheet", file.name)
        self.assertEqual(told.returncode, 6)
        self.assertEqual(
            told.stdout,
            b"a file has at most 4,194,304 bytes, and this one has 4,194,305 bytes: split it\n"
            b"the office would write: refused: bytes\n",
        )

    def test_what_is_too_large_is_not_read_to_its_end(self) -> None:
        if pathlib.Path("/dev/zero").exists():
            told = ran("sheet", "/dev/zero")
            self.assertEqual((told.returncode, told.stdout.count(b"\n")), (6, 2))
            self.assertIn(b"and this one has more bytes than that", told.stdout)


class Folded(unittest.TestCase):
    def test_equal_causes_are_one_line_with_a_count(self) -> None:
        _, said = sheet(GOOD.replace(b"2026-03-06", b"3/6/26"), "--no-warnings")
        self.assertEqual(len(said), 2, said)
        # its applications stand in these rows
        self.assertTrue(said[0].startswith("rows 16, 17, 20, 21, 23, 24, 26 and 1 more (8 rows), column H "), said[0])

    def test_values_that_differ_are_one_mistake(self) -> None:
        data = GOOD.replace(b"26400", b'"26,400"').replace(b"15840", b'"15,840"')
        _, said = sheet(data, "--no-warnings")
        self.assertEqual(
            said[0],
            'rows 5 to 8, column E, first "26,400": a length in feet has no separators: write 26400 there',
        )

    def test_many_names_are_one_line(self) -> None:
        nodes = b"".join(b"segment,S%d,A%d,B%d,1,,,\n" % (at, at, at) for at in range(300))
        _, said = sheet(b"day,2026-03-02,,,,,,\n" + nodes + b"end,,,,,,,\n")
        self.assertEqual(
            said[:2],
            [
                'rows 2 to 301, columns C and D, first "A0": no node above is called so: capitals count, and names are '
                "defined above the rows that use them",
                "the office would write: refused: record 2 unknown 3",
            ],
        )

    def test_many_lists_with_the_same_mistake_are_one_line(self) -> None:
        trucks = b"".join(b"truck,T%d,ACME,168,120,780,0:12000 %d:30000lb,\n" % (at, 180 + at) for at in range(40))
        _, said = sheet(GOOD.replace(b"actor,ann", trucks + b"actor,ann"), "--no-warnings")
        self.assertEqual(len(said), 2, said)
        self.assertTrue(said[0].startswith('rows 15 to 54, column G, first "0:12000 180:30000lb": the list of axles: '))
        self.assertIn("in a pair a number has no unit behind it", said[0])

    def test_many_bridges_on_one_of_two_ways_are_one_warning(self) -> None:
        nodes = b"".join(b"node,N%d,,,,,,\n" % at for at in range(10))
        ends = [(at, at, at + 1) for at in range(9)]
        roads = b"".join(b"segment,E%d,N%d,N%d,900,,,\nsegment,W%d,N%d,N%d,900,,,\n" % (*it, *it[:1], *it[:0:-1])
                         for it in ends)
        bridges = b"".join(b"span,B%d,E%d,480,1300,,,\n" % (at, at) for at in range(9))
        _, said = sheet(TWO_WAYS.replace(b"span,MILL-E", nodes + roads + bridges + b"span,MILL-E"))
        self.assertEqual(len(said), 2, said)
        self.assertEqual(
            said[0],
            'warning: rows 34 to 42, column C, first "E0": another one leads the other way and has no span: a bridge '
            "on a road in both directions is a span on both stretches",
        )

    def test_many_axles_with_the_same_doubt_are_one_warning(self) -> None:
        train = b" ".join(b"%d:%d" % (10 * at, 30 + at) for at in range(12))
        _, said = sheet(TWO_WAYS.replace(b"0:12000 180:17000 228:17000", train))
        self.assertIn('row 8, column G "0:30 10:31', said[0])
        self.assertTrue(said[0].endswith(": an axle has such a weight; were kips written?"), said[0])
        self.assertTrue(said[1].endswith(": two axles are so near each other; were feet written?"), said[1])
        # twelve weights, and eleven distances
        self.assertIn("in all 23 warnings", said[-2])

    def test_several_roads_that_lead_the_other_way_are_said_in_short(self) -> None:
        roads = b"".join(b"segment,W%d,B,A,900,,,\n" % at for at in range(9))
        data = TWO_WAYS.replace(b"span,MILL-W,S-W,480,1300,,,\n", roads)
        _, said = sheet(data)
        self.assertIn("S-W and 9 more lead the other way and have no span: a bridge", said[0])

    def test_at_most_fifty_lines_and_a_total(self) -> None:
        rows = b"".join(b"limit,S-E,height,%d,,,,\n" % at for at in range(170, 240))
        _, said = sheet(TWO_WAYS.replace(b"span,MILL-E", rows + b"span,MILL-E"))
        self.assertEqual(len(said), 52)
        # the first of 70 is no second one, and the stretch of the other way has no such limit
        self.assertEqual(said[50], "left out here: 20 lines; in all 139 warnings")
        self.assertEqual(said[51], "the office takes this file")

    def test_a_file_of_nothing_but_mistakes_is_not_looked_through(self) -> None:
        _, said = sheet(b"x\n" * 50000)
        self.assertEqual(len(said), 3)
        self.assertIn("in all 10,000 mistakes in 10,000 rows; behind them nothing was looked at", said[1])


class Cells(unittest.TestCase):
    """What spreadsheets and hands do to a cell is called by its name, and what to write is said where it is certain."""

    def of(self, old: bytes, new: bytes) -> str:
        self.assertIn(old, GOOD)
        status, said = sheet(GOOD.replace(old, new, 1), "--no-warnings")
        self.assertEqual((status, len(said)), (5, 2), said)
        return said[0]

    def test_numbers(self) -> None:
        cases = {
            b"=5280*12": "a length in feet: here is a formula, and not what it gives: paste its value in its place",
            b"#REF!": "#REF! is what a spreadsheet shows for a formula without a value: write the value itself",
            b"#N/A": "#N/A is what a spreadsheet shows",
            b"Err:502": "Err:502 is what a spreadsheet shows",
            b"#####": "the column was too narrow to show what stands in it: make it wider and save again",
            b"TRUE": "TRUE is a spreadsheet's word, and no number",
            b"63360 ": "a blank stands behind it, which no eye sees: write 63360",
            b" 63360": "a blank stands in front of it, which no eye sees: write 63360",
            b"63360" + HARD_SPACE: "a hard space stands behind it, which no eye sees: write 63360",
            b"63360\t": "a tab stands behind it, which no eye sees: write 63360",
            b"6336O": "the letter O stands among its digits: write 63360",
            b"6336l": "the letter l stands among its digits: write 63361",
            b"'63360": "an apostrophe stands in front, which some spreadsheets save with the text: write 63360",
            b"63360 ft": "has no unit behind it: digits alone, and converted where it is another unit",
            b"12mi": "has no unit behind it: digits alone",
            b"6.336E+04": "a spreadsheet wrote it as a power of ten, perhaps rounded: write 63360",
            b"-63360": "has no sign",
            b"2026-03-02": "here is a day, and no number",
            b"12%": "is no number of per cent",
            b"1234567890": "has at most 9 digits, and here are 10",
            "\u0666\u0663".encode(): "its digits are those of another script",
            "63360 §".encode(): "is a number: one to nine digits, and nothing else",
            b"63360x2": "is a number: one to nine digits, and nothing else",
            b"far": "is a number: one to nine digits, and nothing else",
            b"": "a length in feet is missing",
        }
        self.numbers(cases)

    def test_separators_and_fractions(self) -> None:
        cases = {
            b"63360.00": "is a whole number, with nothing behind a point: write 63360",
            b"63360.50": "is a whole number, and here is a fraction: round it",
            b"63.360": "with no point: write 63360 where the point parts thousands, and else round it",
            b"63 360": "has no separators: write 63360",
            b"'63,360'": "an apostrophe stands in front, which some spreadsheets save with the text, and it has no",
            b"1,234.567": "has no separators, and it is a whole number, and here is a fraction: round it",
            b"63,360.00": "has no separators, and it is a whole number, with nothing behind a point: write 63360",
            b"63.360,00": "has no separators, and it is a whole number, with nothing behind a point: write 63360",
            b"1.234,567": "has no separators, and it is a whole number, and here is a fraction: round it",
            b"63360.": "is a whole number, with nothing behind a point: write 63360",
        }
        self.numbers(cases)

    def numbers(self, cases: dict[bytes, str]) -> None:
        """What is said of cells that stand in place of a number of feet."""
        for cell, words in cases.items():
            said = self.of(b"63360", cell if b"," not in cell else b'"' + cell + b'"')
            self.assertTrue(said.startswith("row 9, column E "), said)
            self.assertIn(words, said)
            self.assertEqual("has no unit" in said, "unit" in words, said)

    def test_thousandths(self) -> None:
        for cell in (b"1.3", b"1.300", b"1.30"):
            self.assertIn("has no point, since it counts thousandths: write 1300", self.of(b"1300", cell))
        self.assertIn("since it counts thousandths: write 1250", self.of(b"rating,1250", b"rating,1.25"))
        self.assertIn("has no separators: write 12500", self.of(b"1300", b'"12,500"'))
        # a weight in tons, perhaps: what is meant is not said
        self.assertIn("here is a fraction: round it", self.of(b"1300", b"45.5"))
        self.assertIn("here is a fraction: round it", self.of(b"RING-E,gross,150000", b"RING-E,gross,75.5"))

    def test_words(self) -> None:
        self.assertIn("closed is 1 for closed and 0 for open: write 1", self.of(b"closed,1", b"closed,TRUE"))
        self.assertIn("closed is 1 for closed and 0 for open: write 0", self.of(b"closed,0", b"closed,false"))
        self.assertIn("is written in small letters: write height", self.of(b"SR7-N,height", b"SR7-N,Height"))
        self.assertIn("a blank stands behind it, which no eye sees: write height", self.of(b"height,", b"height ,"))

    def test_names(self) -> None:
        cases = {
            b" BOLT": "a blank stands in front of it, which no eye sees: write BOLT",
            "BOLT\u2013A".encode(): "here is a longer dash than -: write BOLT-A",
            "BÖLT".encode(): "has the letters A to Z, digits, - and _ alone, and not Ö (U+00D6)",
            # a Greek letter that looks like a B
            "\u0392OLT".encode(): "digits, - and _ alone, and not \u0392 (U+0392)",
            b"BOLT&CO": "digits, - and _ alone, and not &",
            b"BOLT CO": "is a name: letters, digits, - and _, no spaces",
            b"B" * 17: "at most 16 letters, digits, - and _, and this has 17",
            b"=B2": "here is a formula",
        }
        for cell, words in cases.items():
            self.assertIn(words, self.of(b"BOLT", cell))

    def test_days(self) -> None:
        cases = {
            b"2026-3-2": "its month and day have two digits, with - between: write 2026-03-02",
            b"2026/03/02": "write 2026-03-02",
            b"2026-03-02 00:00:00": "has no time of day: write 2026-03-02",
            b"46083": "here is a spreadsheet's own number of a day",
            b"03/02/26": "is written YYYY-MM-DD, as 2026-03-02: set the column to the format Text",
            b"": "an opening day is missing",
        }
        for cell, words in cases.items():
            said = self.of(b"day,2026-03-02", b"day," + cell)
            self.assertIn(words, said)
            self.assertEqual(words.endswith("2026-03-02") and "write" in words, said.endswith("write 2026-03-02"))

    def test_axles(self) -> None:
        axles = b"0:12000 180:30000 234:30000"
        cases = {
            b"0:12000  180:30000 234:30000": "here are two spaces side by side: write 0:12000 180:30000 234:30000",
            b"0:12000;180:30000;234:30000": "one space stands between two pairs, and here is another sign: write 0:120",
            b"0:12000" + HARD_SPACE + b"180:30000 234:30000": "a hard space or a tab stands in it: write 0:12000 180:3",
            b'"0:12,000 180:30000 234:30000"': 'in pair 1, "0:12,000", a number has no separators',
            b"0:12000 180 234:30000": 'pair 2 is "180", with no colon',
            b"0:12000 180: 234:30000": 'in pair 2, "180:", a number is missing',
            b"0:12000 180:3OOOO 234:30000": "the letter O stands among its digits",
        }
        for cell, words in cases.items():
            self.assertIn(words, self.of(axles, cell))

    def test_kinds_and_rows(self) -> None:
        mark = b"\xef\xbb\xbf"
        self.assertIn("a second byte order mark stands in front of the file", self.of(b"day,", mark + mark + b"day,"))
        self.assertIn("a byte order mark stands here", self.of(b"node,PLANT", mark + b"node,PLANT"))
        self.assertIn("is a line for spreadsheets, and no row: take it out", self.of(b"day,", b"sep=,\nday,"))
        self.assertIn("a blank stands behind it, which no eye sees: write node", self.of(b"node,PLANT", b"node ,PLANT"))
        self.assertIn("here is a remark", self.of(b"node,PLANT", b"# the plant,,,,,,,\nnode,PLANT"))
        self.assertIn("which no eye sees, and in a row of the kind node", self.of(b"node,PLANT,,", b"node,PLANT, ,"))
        self.assertIn("nothing but blanks", self.of(b"node,PLANT", b"  \nnode,PLANT"))

    def test_a_name_of_another_kind(self) -> None:
        said = self.of(b"MILL-BR,rating", b"US20-E,rating")
        self.assertIn("US20-E is a segment, and rating is posted on a span", said)
        said = self.of(b"RING-E,closed", b"MILL-BR,closed")
        self.assertIn("MILL-BR is a span, and closed is posted on a segment", said)
        self.assertIn("VAN is a truck, and this column names an actor", self.of(b"show,ann", b"show,VAN"))

    def test_something_in_column_i(self) -> None:
        rows = GOOD.replace(b"\n", b",\n").replace(b"63360,,,,", b"63360,,,,long")
        _, said = sheet(rows)
        self.assertIn("or something stands in column I", said[0])
        self.assertEqual(said[1], 'row 9: "long" stands in column I, and there are eight columns, A to H')

    def test_a_space_behind_each_comma(self) -> None:
        _, said = sheet(GOOD.replace(b",", b", "), "--no-warnings")
        self.assertLess(len(said), 8)
        self.assertIn("a blank stands in a column in which nothing is to stand, and no eye sees it", said[0])
        self.assertIn("a blank stands in front of it, which no eye sees", said[1])

    def test_what_would_still_be_refused_is_not_to_be_written(self) -> None:
        cases = (
            (b"63360", b"0.00", "with nothing behind a point, and a length in feet is 1 to 10,000,000"),
            (b"168,120", b'"16,800",120', "has no separators, and a height in inches is 1 to 999"),
            (b"480,1300", b"480,13OOOO", "among its digits, and a rating in thousandths is 0 to 100,000"),
            (b"closed,1", b"closed,1O", "among its digits, and the value of a posting of closed is 0 to 1"),
            (b"2026-03-04", b"2026-2-30", "with - between, and there is no such day in the calendar"),
            (b" 234:30000", b"  54:30000", "two spaces side by side, and places begin with 0 and rise"),
            (b"show,ann", b"show,anm ", "which no eye sees, and no actor above is called anm"),
            (b"truck,VAN", b"truck,LOWBOY ", "which no eye sees, and there is a truck LOWBOY already, in row 13"),
        )
        for old, new, words in cases:
            _, said = sheet(GOOD.replace(old, new, 1), "--no-warnings")
            self.assertIn(words, said[0])
            self.assertNotIn(": write ", said[0])
        # PLANT is defined below the row that names it with a blank behind it
        data = GOOD.replace(b"node,PLANT,,,,,,\n", b"").replace(b"CREEK,PLANT,15840", b"CREEK,PLANT ,15840")
        _, said = sheet(data.replace(b"end,", b"node,PLANT,,,,,,\nend,"), "--no-warnings")
        self.assertIn("which no eye sees, and the node PLANT is defined further below, in row 30", said[0])

    def test_what_is_to_be_written_is_taken(self) -> None:
        cells = (b"63360", b"6336O"), (b"63360", b"'63360 "), (b"1300", b"1.3"), (b"BOLT", b"BOLT" + HARD_SPACE)
        for old, new in cells:
            said = self.of(old, new)
            instead = said.rpartition("write ")[2].encode()
            self.assertEqual(sheet(GOOD.replace(old, instead, 1), "--no-warnings")[0], 0, said)


class Warned(unittest.TestCase):
    def warned(self, data: bytes) -> str:
        status, said = sheet(data)
        self.assertEqual((status, said[-1]), (0, "the office takes this file"), said)
        return "\n".join(line for line in said if line.startswith("warning: "))

    def test_warns_of_what_is_hardly_meant(self) -> None:
        good = self.warned(GOOD)
        cases = {
            'row 12, column D "40": a span of 3 ft 4 in': GOOD.replace(b"480,1300", b"40,1300"),
            'row 12, column E "13"': GOOD.replace(b"480,1300", b"480,13"),
            "axle 2 weighs 90,000 lb": GOOD.replace(b"180:30000", b"180:90000"),
            "axle 2 weighs 30 lb": GOOD.replace(b"180:30000", b"180:30"),
            "axles 2 and 3 are 4 in apart": GOOD.replace(b"234:30000", b"184:30000"),
            'row 5, column E "10": the length of a segment is in feet': GOOD.replace(b"CREEK,26400", b"CREEK,10", 1),
            "the truck is 100 ft long and else legal": GOOD.replace(b"160,102,636", b"160,102,1200"),
            "2 actors work at once": GOOD.replace(b"actor,ann,", b"actor,bob,,,,,,\nactor,ann,"),
            "no permit has this number by then": GOOD.replace(b"show,ann,1,", b"show,ann,9,"),
            "row 10 sets the height of SR7-N too": GOOD.replace(
                b"limit,RING-E,gross,150000", b"limit,SR7-N,height,170"
            ),
            "nearly all trucks are higher": GOOD.replace(b"height,172", b"height,14"),
            "an allowance is in thousandths": GOOD.replace(b"gross,150000", b"allowance,150"),
            "does not go back": GOOD.replace(b"setday,ann,2026-03-04", b"setday,ann,2026-03-01"),
            "a permit of more than a year": GOOD.replace(b"2026-03-06", b"2028-03-06", 1),
            "a route stands here twice": GOOD.replace(b"US20-E SR7-N,", b"US20-E SR7-N|RING-E|US20-E SR7-N,"),
            "the last axle stands 234 in behind the first": GOOD.replace(b"168,120,780", b"168,120,200"),
            "the segment leads from a node to itself": GOOD.replace(
                b"RING-E,DEPOT,PLANT", b"LOOP,DEPOT,DEPOT"
            ).replace(b"RING-E", b"LOOP"),
        }
        for words, data in cases.items():
            self.assertIn(words, self.warned(data))
            self.assertNotIn(words, good)

    def test_a_rating_of_nothing_or_of_everything_is_meant(self) -> None:
        good = self.warned(GOOD)
        for rating, is_warned in ((b"0", False), (b"100000", False), (b"99999", True), (b"199", True), (b"200", False)):
            for old in (b"480,1300", b"rating,1250"):
                new = old[:-4] + rating
                self.assertEqual(self.warned(GOOD.replace(old, new)) != good, is_warned, (old, rating))

    def test_warns_of_what_stands_on_one_of_two_ways(self) -> None:
        self.assertEqual(self.warned(TWO_WAYS), "")
        height = b"limit,S-W,height,168,,,,\n"
        cases = (
            ('row 6, column C "S-E": S-W leads the other way and has no span', b"span,MILL-W,S-W,480,1300,,,\n", b""),
            ('row 6, column C "S-W": S-E leads the other way and has no span', b"span,MILL-E,S-E,480,1300,,,\n", b""),
            ('"S-E": S-W leads the other way, and is never closed', b"post,ann,S-W,closed,1,,,\n", b""),
            ('"S-E": S-W leads the other way, and is never closed', b"S-W,closed,1", b"S-W,closed,0"),
            ('row 6, column B "S-W": S-E leads the other way, and its height', b"span,", height + b"span,"),
            ("no rating is posted on its spans", b"post,ann,S-E,closed,1", b"post,ann,MILL-E,rating,900"),
        )
        for words, old, new in cases:
            self.assertIn(words, self.warned(TWO_WAYS.replace(old, new, 1)))

    def test_a_road_in_one_direction_is_warned_of_nowhere(self) -> None:
        # RING-E has no stretch of the other way
        self.assertNotIn('"RING-E"', self.warned(GOOD))

    def test_what_stands_behind_the_end_has_no_actor(self) -> None:
        # two files that were put together; the first has one actor
        _, said = sheet(TWO_WAYS + TWO_WAYS)
        self.assertNotIn("actors work at once", "".join(said))
        self.assertIn("the day stands once, in row 1", said[0])

    def test_a_refused_span_counts_on_the_other_way(self) -> None:
        _, said = sheet(TWO_WAYS.replace(b"S-W,480,1300", b"S-W,480,1300.5"))
        self.assertEqual([line for line in said if line.startswith("warning")], [])

    def test_warns_of_nothing_where_it_is_not_asked_to(self) -> None:
        _, said = sheet(GOOD, "--no-warnings")
        self.assertEqual(said, ["the office takes this file"])


class Words(unittest.TestCase):
    def test_streams_that_are_closed(self) -> None:
        """All three programs: a line and a status, and no word of Python's."""
        day, journal, check, report = (EXAMPLES / name for name in (
            "recall.csv", "recall.journal", "two-trucks.csv", "two-trucks.convoy"
        ))
        unread = "standard input cannot be read: Bad file descriptor"
        unwritten = "standard output cannot be written: Bad file descriptor"
        cases: tuple[tuple[str, tuple[object, ...], str, int, str], ...] = (
            ("sheet", ("-",), "<&-", 3, unread),
            ("sheet", (day,), ">&-", 4, unwritten),
            ("day", (day, "-"), "<&-", 3, unread),
            ("day", (day, journal), ">&-", 4, unwritten),
            ("truck", ("-", report), "<&-", 3, unread),
            ("truck", (check, report, "--table"), ">&-", 4, unwritten),
        )
        for name, words, closed, status, line in cases:
            told = subprocess.run(
                ["/bin/sh", "-c", f'exec "$0" "$@" {closed}', VIEW / name, *map(str, words)], capture_output=True
            )
            self.assertEqual((told.returncode, told.stderr.decode()), (status, f"{name}: {line}\n"))
        told = subprocess.run(["/bin/sh", "-c", 'exec "$0" /no/file 2>&-', VIEW / "sheet"], capture_output=True)
        self.assertEqual((told.returncode, told.stdout), (3, b""))

    def test_a_file_that_is_not_there(self) -> None:
        told = ran("sheet", "/no/such/file")
        self.assertEqual((told.returncode, told.stdout), (3, b""))
        self.assertEqual(told.stderr, b"sheet: /no/such/file cannot be read: No such file or directory\n")

    def test_words_that_ask_for_nothing(self) -> None:
        told = ran("sheet")
        line = b"sheet: the following arguments are required: FILE: --help says how it is used\n"
        self.assertEqual((told.returncode, told.stdout, told.stderr), (2, b"", line))
        self.assertEqual(ran("sheet", "--check", "--day", "x").returncode, 2)
        self.assertEqual(ran("sheet", "--help").returncode, 0)

    def test_a_full_disk(self) -> None:
        if pathlib.Path("/dev/full").exists():
            with open("/dev/full", "wb") as full:
                told = subprocess.run(
                    [VIEW / "sheet", EXAMPLES / "template.csv"], stdout=full, stderr=subprocess.PIPE
                )
            self.assertEqual(told.returncode, 4)
            self.assertEqual(told.stderr, b"sheet: standard output cannot be written: No space left on device\n")


if __name__ == "__main__":
    unittest.main()
