#!/usr/bin/env python3
"""An engine that plays as the built program at a depth, but carelessly: one move in eight is any
legal one, and now and then it leaves, or answers what is no legal move.

Usage: report_engine.py PROGRAM DEPTH. What it does in a position, it always does there.
"""
import random
import subprocess
import sys


class Player:
    """The built program, asked a line at a time."""

    def __init__(self, program: str) -> None:
        self.process = subprocess.Popen(
            [program, "uhp"], stdin=subprocess.PIPE, stdout=subprocess.PIPE, text=True, bufsize=1
        )

    def reply(self) -> list[str]:
        """The lines up to `ok`."""
        lines = []
        while (line := self.process.stdout.readline().rstrip("\n")) != "ok":
            lines.append(line)
        return lines

    def ask(self, line: str) -> list[str]:
        self.process.stdin.write(line + "\n")
        return self.reply()


def choose(player: Player, game: str, depth: str) -> list[str] | None:
    """The lines of an answer to `bestmove`, or nothing if it leaves."""
    dice = random.Random(game)
    chance = dice.random()
    if chance < 0.002:
        return None
    if chance < 0.004:
        return ["wQ -bQ"]
    if chance < 0.125:
        return [dice.choice(player.ask("validmoves")[0].split(";"))]
    return player.ask(f"bestmove depth {depth}")


def main(program: str, depth: str) -> None:
    player, game = Player(program), ""
    answer = player.reply()
    while answer is not None:
        print("\n".join(answer + ["ok"]), flush=True)
        line = sys.stdin.readline().rstrip("\n")
        if not line:
            return
        if line.startswith("bestmove"):
            answer = choose(player, game, depth)
        else:
            answer = player.ask(line)
            game = answer[0] if answer and answer[0].startswith("Base") else game


if __name__ == "__main__":
    main(sys.argv[1], sys.argv[2])
