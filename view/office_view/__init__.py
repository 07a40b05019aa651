"""What people look at rather than read: a page of a day, pictures of a truck, and every mistake of a sheet.

Three small programs stand on this package: `view/day`, `view/truck` and `view/sheet`. They stand beside the proved
program and are not proved. The formats of files they read by the modules of the second program, `compare/model`, so
that there is one reader in Python. Read it in this order:

- `command`    words, files and the one line of a fault, for all three;
- `writing`    outputs, written whole or not at all;
- `sheet`      a file that is read on behind each record that is refused;
- `sayings`    what is said of a refused record, in words;
- `whole`      what is wrong with a file as a whole;
- `spoiled`    what spreadsheets and hands do to a cell;
- `hints`      both: what befell a cell or a row, or else what has to stand there;
- `plausible`  what is accepted and yet is hardly meant;
- `doubts`     the same of roads that lead both ways, and of files of which some records are refused;
- `listing`    each mistake once, and at most so many lines;
- `journal`    the grammar of the journal;
- `auditing`   what a program says of a journal, before there is a page;
- `reckoning`  the first limit that fails a truck on a segment, worked out;
- `replay`     a journal over its day file: permits, postings and answers;
- `rating`     what a report says of each span, and the table of it;
- `report`     the grammar of the three reports;
- `loading`    what is only drawn of a truck on a span, in exact fractions;
- `paper`      sheets of paper, with places in inches;
- `side`       the truck from the side;
- `spans`      one span on a sheet;
- `picture`    all sheets of a truck;
- `network`    the places of nodes in the drawing of roads;
- `wording`    answers of the office in words and names;
- `markup`     pieces of markup;
- `page`       the page of a day;
- `handout`    the page of one carrier or of one permit.
"""
VERSION = "1"
