"""Inputs that are made of a seed, for comparing: the same seed always makes the same input.

- `trucks`      trucks, ordinary ones and at the limits of the rules;
- `files`       check files and day files that are good;
- `annual`      day files of permits for several routes;
- `breaking`    ways to break a file, one for each cause of a refusal, and bytes changed at random;
- `forging`     journals with their day files behind them, right ones and forged ones;
- `certifying`  the same, whole ones and ones that lack, have or change something;
- `texts`       the ways in which the same records may be written down;
- `families`    the kinds of input, and which one a seed makes.
"""
