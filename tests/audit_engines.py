#!/usr/bin/env python3
"""Engines whose rules are those of reference.py but for one, or which stall, leave or do not read:
they speak the Universal Hive Protocol, to be audited.

Usage: audit_engines.py NAME, of the names in WRONG, of which the rules of `none` are right.
"""
import os
import pathlib
import sys
import time
import types

REFERENCE = pathlib.Path(__file__).resolve().parent / "reference.py"


def fresh_rules():
    """The rules as a module of its own, to be changed."""
    rules = types.ModuleType("changed_rules")
    exec(compile(REFERENCE.read_text(encoding="utf-8"), REFERENCE, "exec"), rules.__dict__)
    return rules


def any_steps(rules, board, place):
    """Steps up, down and along, through gates too."""
    for goal in rules.neighbours(place):
        if place in board or goal in board:
            yield goal


def holed_steps(rules, board, place):
    """Steps on the ground along the hive, through gates too."""
    for index, way in enumerate(rules.AROUND):
        goal = rules.toward(place, way)
        beside = [rules.toward(place, rules.AROUND[(index + turn) % 6]) for turn in (1, 5)]
        if goal not in board and any(near in board for near in beside):
            yield goal


def beetles_pass_gates(rules):
    right = rules.reach

    def reach(board, start, kind):
        goals = right(board, start, kind)
        if kind == "B":
            goals.update(any_steps(rules, board, start))
        return goals

    rules.reach = reach


def ants_enter_holes(rules):
    right = rules.reach

    def reach(board, start, kind):
        goals = right(board, start, kind)
        if kind == "A":
            ahead = [start]
            while ahead:
                for goal in holed_steps(rules, board, ahead.pop()):
                    if goal not in goals and goal != start:
                        goals.add(goal)
                        ahead.append(goal)
        return goals

    rules.reach = reach


def spiders_step_back(rules):
    """The third step of a spider may lead back to where its first one led."""
    right = rules.reach

    def reach(board, start, kind):
        goals = right(board, start, kind)
        if kind == "S":
            for first in rules.ground_steps(board, start):
                if any(goal not in (start, first) for goal in rules.ground_steps(board, first)):
                    goals.add(first)
        return goals

    rules.reach = reach


def mosquitoes_keep_their_copies(rules):
    """A mosquito on a piece moves as each of its neighbours does, and not as a beetle."""
    right = rules.reach

    def reach(board, start, kind):
        if kind != "M" or start not in board:
            return right(board, start, kind)
        kinds = {rules.top(board, near)[1] for near in rules.neighbours(start) if near in board}
        goals = set()
        for copied in kinds - {"M"} | {"B"}:
            goals |= right(board, start, copied)
        goals.discard(start)
        return goals

    rules.reach = reach


def queens_come_first(rules):
    right = rules.Position.placements

    def placements(self):
        yield from right(self)
        if self.turn == 1:
            yield from ((self.side + "Q", place) for place in self.open_places())

    rules.Position.placements = placements


def throws_of(rules, may_be_thrown):
    """The throws where each piece on top may be thrown of which this is so."""

    def throws_by(self, place):
        for index, way in enumerate(rules.AROUND):
            start = rules.toward(place, way)
            thrown = rules.top(self.board, start)
            if thrown is None or not may_be_thrown(self, start, thrown):
                continue
            rest = rules.without(self.board, thrown)
            is_blocked = rules.is_blocked(rest, start, (index + 3) % 6)
            if is_blocked or rules.is_cut_place(self.board, start):
                continue
            for goal_index, goal_way in enumerate(rules.AROUND):
                goal = rules.toward(place, goal_way)
                if goal in rest or goal == start or rules.is_blocked(rest, place, goal_index):
                    continue
                yield thrown, goal

    def throws(self):
        for place, stack in self.board.items():
            thrower = stack[0]
            if len(stack) > 1 or thrower[0] != self.side or thrower == self.rest:
                continue
            near = [it for it in rules.neighbours(place) if it in self.board]
            touches = any(rules.top(self.board, it)[1] == "P" for it in near)
            if thrower[1] == "P" or thrower[1] == "M" and touches:
                yield from throws_by(self, place)

    rules.Position.throws = throws


def stacks_are_thrown_from(rules):
    throws_of(rules, lambda position, start, thrown: thrown != position.rest)


def resting_pieces_are_thrown(rules):
    """The piece that the last ply moved may be thrown."""
    throws_of(rules, lambda position, start, thrown: rules.height(position.board, start) == 1)


def there_is_no_pass(rules):
    right = rules.Position.find_moves
    rules.Position.find_moves = lambda self: [move for move in right(self) if move is not None]


def a_queen_waits_for_turn_five(rules):
    """A queen need not be placed at the fourth turn."""
    right = rules.Position.placements

    def placements(self):
        turn = self.turn
        self.turn = 3 if turn == 4 else turn
        yield from right(self)
        self.turn = turn

    rules.Position.placements = placements


def the_state_is_late(rules):
    """A game that is over is said to be in progress."""

    def string(self):
        state = "InProgress" if self.texts else "NotStarted"
        return ";".join([self.position().game_type, state, self.turn()] + self.texts)

    rules.Play.string = string


def each_move_is_played(rules):
    """A move that can be read is played, legal or not."""

    def move(self, text):
        self.play.make(self.play.position().read(text))
        return [self.play.string()]

    rules.Session.move = move


def a_loaded_game_lacks_its_last_move(rules):
    right = rules.Session.newgame

    def newgame(self, text):
        answer = right(self, text)
        if self.play.texts:
            self.play.undo(1)
            answer = [self.play.string()]
        return answer

    rules.Session.newgame = newgame


def it_stalls_at_a_move(rules):
    """No move that is played is answered."""
    rules.Session.move = lambda self, text: time.sleep(1000)


def it_leaves_at_a_load(rules):
    """A game string ends the run."""
    right = rules.Session.newgame
    rules.Session.newgame = lambda self, text: None if ";" in text else right(self, text)


def it_reads_nothing(rules):
    """The input is closed before the greeting is written."""
    os.close(0)


# What is changed, by the name of the engine.
WRONG = {
    "beetles": beetles_pass_gates,
    "ants": ants_enter_holes,
    "resting": resting_pieces_are_thrown,
    "mosquitoes": mosquitoes_keep_their_copies,
    "queens": queens_come_first,
    "spiders": spiders_step_back,
    "stacks": stacks_are_thrown_from,
    "passes": there_is_no_pass,
    "fourth": a_queen_waits_for_turn_five,
    "states": the_state_is_late,
    "refusals": each_move_is_played,
    "loads": a_loaded_game_lacks_its_last_move,
    "stalls": it_stalls_at_a_move,
    "leaves": it_leaves_at_a_load,
    "deaf": it_reads_nothing,
    "none": lambda rules: None,
}


def changed(name):
    """The rules with this one changed."""
    rules = fresh_rules()
    WRONG[name](rules)
    return rules


def speak(session, lines, out):
    out.write("\n".join(session.answer(b"info") + ["ok", ""]))
    out.flush()
    for line in lines:
        answer = session.answer(line.rstrip(b"\n"))
        if answer is None:
            return
        out.write("\n".join(answer + ["ok", ""]))
        out.flush()


if __name__ == "__main__":
    speak(changed(sys.argv[1]).Session(), sys.stdin.buffer, sys.stdout)
