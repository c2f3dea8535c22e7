"""Compares the answers of the built program with those of checker.py, byte for byte: of true
certificates and solutions, and of 200 made texts, each a true text with one thing changed.

What is changed is drawn from a seed, which HIVE_SEED may name.
"""
import random
import sys

import checker
import support
from support import THROWS, WON, run

MADE = 200
AFTER_PASS = support.PASSED.replace("Black[6]", "White[7]") + ";pass"
CERTIFIED = [("Base", 1), ("Base", 2), ("Base", 3), ("Base+MLP", 2), (WON, 1), (WON, 2)]
CERTIFIED += [(AFTER_PASS, 3), (THROWS, 2), (AFTER_PASS, 4)]
SOLVED = [("Base", 2), ("Base", 3), (WON, 1), (WON, 2)]
SOLVED += [(AFTER_PASS, 2), (AFTER_PASS, 4), (THROWS, 2)]
KINDS = ["head", "game", "line", "line", "near", "near", "near", "near", "left over"]
KINDS += ["drop", "drop", "add", "swap", "cut", "crlf", "unended"]
FIELDS = ["0", "1", "2", "3", "64", "65", "-1", "-0", "01", "1000064", "1000065", "yes", "no", ""]
FIELDS += [" ", "pass", "wQ", "wA1", "wS1"]
PARTS = ["", "Base+P", "Base+PM", "Draw", "InProgress", "White[1]", "Black[7]", "White[0]", "pass"]
PARTS += ["wS1", "wQ -wS1", "bQ wS1\\", "wA3 wZ-"]

Lines = list[str]
Draw = random.Random


def written(words: Lines, given: str) -> Lines:
    """The lines that a run writes."""
    return run(words, given)[1].rstrip("\n").split("\n")


def true_texts() -> tuple[list[Lines], list[Lines]]:
    """Certificates of both versions, and solutions."""
    certificates = [
        written(["certify", "--depth", str(depth)], game + "\n") for game, depth in CERTIFIED
    ]
    certificates += [written(["migrate"], support.text_of(lines)) for lines in certificates]
    solutions = [written(["solve", "--plies", str(plies)], game + "\n") for game, plies in SOLVED]
    return certificates, solutions


def another_line(draw: Draw, lines: Lines) -> str:
    """A line of its form or nearly, to stand in place of another."""
    small = draw.randrange(12)
    drawn = [str(small), str(small + 20), str(draw.randrange(5500)), f"@{small}", f"@{small}"]
    drawn += [f"@{draw.randrange(70000)}", f"0{small}", f"{small} "]
    drawn += ["", "-0", "x", "5487", "5488", "65536", f"{small}\r", f"{small}\r\r", "0" * 65537]
    return draw.choice(drawn + [draw.choice(lines)])


def another_head_line(draw: Draw, lines: Lines, at: int) -> str:
    """A line of a head with its field changed."""
    word, _, field = lines[at].partition(" ")
    other = draw.choice(FIELDS)
    if field.lstrip("-").isdigit() and draw.random() < 0.5:
        other = str(int(field) + draw.choice([-1, 1]))
    changed = [f"{word} {other}", f"{word} {other}", f"{word}  {field}", f"{word.upper()} {field}"]
    return draw.choice(changed + [f"{word}{field}", field])


def another_game(draw: Draw, lines: Lines) -> str:
    """The game string with one part changed."""
    parts = lines[1].split(";")
    at = draw.randrange(len(parts))
    others = [[], [draw.choice(PARTS)], [parts[at], parts[at]], [parts[at] + " "]]
    return ";".join(parts[:at] + draw.choice(others) + parts[at + 1 :])


def near_line(draw: Draw, line: str) -> str:
    """An index or a cite with another number beside its own."""
    digits = line.lstrip("@")
    return line[: len(line) - len(digits)] + str(max(0, int(digits) + draw.choice([-2, -1, 1, 2])))


def place_drawn(draw: Draw, kind: str, lines: Lines, head: int) -> int:
    """The place of a change: behind the head in most cases, and at a cite if a number changes."""
    at = draw.randrange(head if len(lines) > head and draw.random() < 0.9 else 0, len(lines))
    citing = [number for number, line in enumerate(lines) if line.startswith("@")]
    if kind in ("near", "drop") and citing and draw.random() < 0.5:
        at = draw.choice(citing)
    return at


def change_line(draw: Draw, kind: str, lines: Lines, at: int, head: int) -> None:
    """Changes a line, or takes, adds or moves one."""
    if kind == "head":
        at = draw.choice([number for number in range(head) if number != 1])
        lines[at] = another_head_line(draw, lines, at)
    elif kind == "game":
        lines[1] = another_game(draw, lines)
    elif kind == "left over":
        lines.append(another_line(draw, lines))
    elif kind == "near" and at >= head:
        lines[at] = near_line(draw, lines[at])
    elif kind in ("line", "near"):
        lines[at] = another_line(draw, lines)
    elif kind == "drop":
        del lines[at]
    elif kind == "add":
        lines.insert(at + draw.randrange(2), another_line(draw, lines))
    elif kind == "swap":
        other = draw.randrange(at, len(lines))
        lines[at], lines[other] = lines[other], lines[at]


def with_one_change(draw: Draw, lines: Lines) -> bytes:
    """A text with one thing changed."""
    head = 4 if lines[0].startswith("hive-solution") else 5
    kind = draw.choice(KINDS + ["near", "drop", "swap"] * (len(lines) > head + 3))
    lines = list(lines)
    change_line(draw, kind, lines, place_drawn(draw, kind, lines, head), head)
    text = "\n".join(lines)
    if kind == "cut":
        return text.encode("latin-1")[: draw.randrange(len(text))]
    if kind == "crlf":
        return "".join(line + "\r\n" for line in lines).encode("latin-1")
    return (text + ("" if kind == "unended" else "\n")).encode("latin-1")


def commands_for(lines: Lines) -> Lines:
    """The commands that a text is made for."""
    if lines[0].startswith("hive-solution"):
        return ["verify"]
    return ["check"] if lines[0].endswith("2") else ["check", "migrate"]


class Checker(support.Case):
    def setUp(self) -> None:
        limit = sys.getrecursionlimit()
        sys.setrecursionlimit(10000)
        self.addCleanup(sys.setrecursionlimit, limit)
        self.certificates, self.solutions = true_texts()

    def same(self, command: str, text: bytes, what: str) -> None:
        """That program and checker write the same of a text, with one status."""
        status, found = run([command], text)
        wanted = checker.answer(command, text)
        self.assertEqual((found, status), wanted, f"{what}, {command} of {text[:400]!r}")

    def test_true_texts(self) -> None:
        for lines in self.certificates + self.solutions:
            for command in ("check", "migrate", "verify"):
                self.same(command, support.text_of(lines).encode(), "a true text")

    def test_changed_texts(self) -> None:
        seed = support.setting("HIVE_SEED", 1)
        draw = random.Random(seed)
        for number in range(MADE):
            pool = self.solutions if draw.random() < 0.3 else self.certificates
            # long texts are drawn less often, since each takes long to check
            is_any = draw.random() < 0.3
            lines = draw.choice(pool) if is_any else min(draw.sample(pool, 2), key=len)
            text = with_one_change(draw, lines)
            for command in commands_for(lines):
                self.same(command, text, f"text {number} of seed {seed}")
