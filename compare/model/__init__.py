"""The permit office once more, in plain Python: a second reading of docs/FORMATS.md and docs/DEFINITIONS.md.

It shares no code with the program and was written from those two pages alone, with whole numbers and fractions of the
standard library. Read it in this order:

- `records`  bytes to records;
- `forms`    what a name, a number, a day, axles and a route look like;
- `files`    the check file and the day file, or the first record that is refused and why;
- `limits`   the federal limits of axle groups;
- `bridges`  peak moments and peak end shears on a simple span, and the design loads;
- `trucks`   a truck, with its groups, its worst group and its effects;
- `report`   what `check`, `design` and `convoy` write;
- `roads`    what is posted at each version, what a truck may pass, and the shortest route;
- `office`   the office of one thread: a reply to each call;
- `journal`  the journal of a day with one actor, and the judge of a journal with several;
- `reading`  a journal of any of its formats, read back, or its first bad line;
- `audit`    whether each entry of a journal is a step of the office of one thread;
- `certify`  whether a journal that is legal has each command of its day file, and nothing else;
- `carry`    the file with which the office of a whole day goes on the next day;
- `reroute`  what comes of an application once more for each permit that was recalled;
- `making`   the made day, and what `trial` writes of it;
- `words`    what the words of the command line ask for.
"""
