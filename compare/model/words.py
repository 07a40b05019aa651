"""What the words of the command line ask for, as the crate `clap` reads them: a command, and four options.

The clerk's words have a command, and with `carry` one option that takes no value.
"""
import re
from collections.abc import Collection, Sequence
from dataclasses import dataclass

COMMANDS = ("check", "day", "make", "trial", "audit", "design", "convoy", "reroute")
RANGES = {"--seed": (0, 65535), "--size": (1, 40), "--trucks": (2, 16), "--gap": (1, 3000)}
USAGE = f"usage: permit_cli {'|'.join(COMMANDS)} [--seed N] [--size N] [--trucks N] [--gap N]\n"
CERTIFY, CARRY, IN_FORCE = "certify", "carry", "--in-force"
CLERK_USAGE = f"usage: permit_clerk {CERTIFY}|{CARRY} [{IN_FORCE}]\n"


@dataclass(frozen=True)
class Asked:
    """What is asked for, with the numbers of options that are not given."""

    command: str
    seed: int = 1
    size: int = 1
    trucks: int = 2
    gap: int = 360


def number(option: str, word: str | None) -> int | None:
    """The number that a word spells, a plus or zeros in front or not; or None where the option does not take it."""
    if not re.fullmatch(r"\+?[0-9]+|-0+", word or ""):
        return None
    least, most = RANGES[option]
    spelt = int(word or "")
    return spelt if least <= spelt <= most else None


def taken(words: Sequence[str], options: Collection[str],
          flags: Collection[str] = ()) -> tuple[list[str], dict[str, int]] | None:
    """The commands and the numbers of the options among the words; or None where there may be no such words.

    A flag is an option without a value. Its number is 1.
    """
    waiting, commands, found = list(words), [], dict[str, int]()
    while waiting:
        word = waiting.pop(0)
        if word == "--":
            commands += waiting
            break
        if not word.startswith("-") or word == "-":
            commands.append(word)
            continue
        if word in flags and word not in found:
            found[word] = 1
            continue
        option, equals, value = word.partition("=")
        if option not in options or option in found:
            return None
        if not equals and waiting and not waiting[0].startswith("-"):
            value = waiting.pop(0)
        spelt = number(option, value)
        if spelt is None:
            return None
        found[option] = spelt
    return commands, found


def asked(words: Sequence[str]) -> Asked | None:
    """What the words ask for; or None where they ask for nothing."""
    commands, found = taken(words, RANGES) or ([], {})
    if len(commands) != 1 or commands[0] not in COMMANDS:
        return None
    return Asked(commands[0], **{option.removeprefix("--"): spelt for option, spelt in found.items()})


@dataclass(frozen=True)
class ClerkAsked:
    """What the clerk is asked for, and whether only trucks with a permit in force are to be carried."""

    command: str
    is_in_force: bool = False


def clerk_asked(words: Sequence[str]) -> ClerkAsked | None:
    """What the words ask the clerk for; or None where they ask for nothing."""
    commands, found = taken(words, (), (IN_FORCE,)) or ([], {})
    if len(commands) != 1 or commands[0] not in (CERTIFY, CARRY):
        return None
    return ClerkAsked(commands[0], IN_FORCE in found)
