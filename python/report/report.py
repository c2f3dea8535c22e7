#!/usr/bin/env python3
"""Makes a page of the record that `hive tournament` writes: report.py night.txt >night.html

Several files are one record: a run that was cut, and the runs that went on with it.
It needs scipy and matplotlib, in Debian python3-scipy and python3-matplotlib; --pgn needs neither.
"""
from __future__ import annotations

import argparse
import os
import sys
from collections.abc import Sequence
from pathlib import Path

import pgn
import schedule
import tables
from record import GameString, Record, RecordError, Source, read_opening, read_record

UNREADABLE, UNWRITTEN, INCOMPLETE, REFUSED = 3, 4, 5, 6
STATUSES = """\
statuses: 0 done, 2 wrong command line, 3 a file cannot be read, 4 the output failed,
5 scipy or matplotlib is missing, 6 a file is refused: the last line on standard error
says why. With --sprt also 10 accepted, 11 rejected, 12 go on."""


def main(words: Sequence[str]) -> int:
    """Does what the words of the command line ask for, and returns the status of the run."""
    asked = read_words(words)
    try:
        record = read_record([read_source(name) for name in asked.files])
        if asked.sprt:
            text, status = try_hypotheses(record, asked)
        else:
            text, status = pgn.write_pgn(record) if asked.pgn else make_page(record, asked), 0
    except (RecordError, schedule.OpeningsError) as fault:
        return complain(REFUSED, str(fault))
    except OSError as fault:
        return complain(UNREADABLE, f"{fault.filename}: {fault.strerror}")
    except ImportError as fault:
        needed = "Debian has it as python3-scipy or python3-matplotlib"
        return complain(INCOMPLETE, f"{sys.executable} has no {fault.name}; {needed}")
    return write(text) or status


def read_words(words: Sequence[str]) -> argparse.Namespace:
    """What is asked for; wrong words end the run with status 2."""
    found = parser()
    asked = found.parse_args(words)
    if asked.sprt and not (-9999 <= asked.sprt[0] < asked.sprt[1] <= 9999):
        found.error("--sprt: ELO0 must be less than ELO1, and both from -9999 to 9999")
    if min(asked.pair) < 1 or asked.pair[0] == asked.pair[1]:
        found.error("--pair: these are not the numbers of two engines")
    return asked


def parser() -> argparse.ArgumentParser:
    found = argparse.ArgumentParser(
        description=__doc__,
        epilog=STATUSES,
        formatter_class=argparse.RawDescriptionHelpFormatter,
        allow_abbrev=False,
    )
    found.add_argument("files", nargs="+", metavar="RECORD", help="a file, - is standard input")
    found.add_argument("--openings", metavar="FILE", help="the tournament's openings, for the page")
    form = found.add_mutually_exclusive_group()
    form.add_argument("--pgn", action="store_true", help="writes PGN headers for rating programs")
    form.add_argument(
        "--sprt",
        nargs=2,
        type=float,
        metavar=("ELO0", "ELO1"),
        help="tests whether an engine is ELO1 better than the other, and not ELO0",
    )
    found.add_argument(
        "--pair",
        nargs=2,
        type=int,
        default=(1, 2),
        metavar=("I", "J"),
        help="with --sprt: engine I is tested against engine J (1 2)",
    )
    return found


def read_source(name: str) -> Source:
    """A file. Bytes beyond ASCII are taken one by one, since the program writes none."""
    if name == "-":
        return Source("standard input", sys.stdin.buffer.read().decode("latin-1"))
    return Source(name, Path(name).read_bytes().decode("latin-1"))


def read_openings(name: str) -> list[GameString]:
    """The openings in a file, one a line, as the tournament was given them."""
    strings = []
    lines = read_source(name).text.removesuffix("\n").split("\n")
    for number, line in enumerate(lines if lines != [""] else [], 1):
        string = read_opening(line.removesuffix("\r"))
        if not string:
            raise RecordError(f"{name}, line {number}: no game string in its written form")
        strings.append(string)
    return strings


def make_page(record: Record, asked: argparse.Namespace) -> str:
    """The page of a record. Only this and the test load the libraries."""
    import page
    import ratings

    if asked.openings:
        openings = schedule.given_openings(record.games, read_openings(asked.openings))
    else:
        openings = schedule.shared_openings(record.games)
    found = ratings.rate(ratings.pairings(record.games), len(record.names))
    return page.write_page(page.Report(record, found, openings, bool(asked.openings)))


def try_hypotheses(record: Record, asked: argparse.Namespace) -> tuple[str, int]:
    """What the test says of two engines, and the status for it."""
    import ratio

    first, second = asked.pair
    if max(asked.pair) > len(record.names):
        raise RecordError(f"there are no games of engine {max(asked.pair)}")
    counts = ratio.count_pairs(record.games, first, second)
    found = ratio.likelihood_ratio(counts, *asked.sprt)
    bounds = ratio.wald_bounds(0.05, 0.05)
    decision = bounds.decide(found)
    lines = [
        f"{record.name(first)} against {record.name(second)}: {sum(counts)} pairs of games",
        f"pairs with 0, 1, 2, 3, 4 points: {' '.join(map(str, counts))}",
        f"log-likelihood ratio {found:.2f}, bounds {bounds.lower:.2f} and {bounds.upper:.2f}",
        decision.name.lower().replace("_", " "),
    ]
    repeated = tables.repeats(record.games)
    if repeated:
        lines.insert(2, f"{repeated} games of the record repeat an earlier one move for move")
    return "".join(line + "\n" for line in lines), decision.value


def write(text: str) -> int:
    """Writes to standard output, and returns 0 or the status for an output that failed."""
    try:
        sys.stdout.buffer.write(text.encode("utf-8"))
        sys.stdout.buffer.flush()
    except OSError as fault:
        os.dup2(os.open(os.devnull, os.O_WRONLY), sys.stdout.fileno())
        return complain(UNWRITTEN, f"the output failed: {fault.strerror}")
    return 0


def complain(status: int, text: str) -> int:
    print(f"report: {text}", file=sys.stderr)
    return status


if __name__ == "__main__":
    sys.exit(main(sys.argv[1:]))
