#!/usr/bin/env python3
"""The rules of Hive and the answers of a session, written plainly and apart from the program, to compare the program with.

Nothing here is fast. A board is a dictionary from places (q, r) to lists of pieces, bottom first; a piece is its name.
"""
EAST, NORTHEAST, NORTHWEST, WEST, SOUTHWEST, SOUTHEAST = (1, 0), (1, -1), (0, -1), (-1, 0), (-1, 1), (0, 1)
AROUND = [EAST, NORTHEAST, NORTHWEST, WEST, SOUTHWEST, SOUTHEAST]
NAMES = ["Q", "S1", "S2", "B1", "B2", "G1", "G2", "G3", "A1", "A2", "A3", "M", "L", "P"]
PIECES = [side + name for side in "wb" for name in NAMES]
ORDER = {piece: place for place, piece in enumerate(PIECES)}
TYPES = ["Base", "Base+M", "Base+L", "Base+P", "Base+ML", "Base+MP", "Base+LP", "Base+MLP"]
WEIGHTS = {"Q": 4, "S": 4, "B": 8, "G": 6, "A": 10, "M": 10, "L": 8, "P": 8}
# the direction from the named piece to the place, by the mark behind or before the name
BEHIND = {"-": EAST, "/": NORTHEAST, "\\": SOUTHEAST}
BEFORE = {"-": WEST, "/": SOUTHWEST, "\\": NORTHWEST}
MOST_PLIES = 5000


def toward(place, way, steps=1):
    return (place[0] + steps * way[0], place[1] + steps * way[1])


def neighbours(place):
    return [toward(place, way) for way in AROUND]


def height(board, place):
    return len(board.get(place, ()))


def top(board, place):
    return board[place][-1] if place in board else None


def where(board, piece):
    return next((place for place, stack in board.items() if piece in stack), None)


def without(board, piece):
    """The board without the piece; what stood above it comes down."""
    rest = {}
    for place, stack in board.items():
        left = [other for other in stack if other != piece]
        if left:
            rest[place] = left
    return rest


def is_one_hive(places):
    places = set(places)
    if not places:
        return True
    found, ahead = set(), [next(iter(places))]
    while ahead:
        place = ahead.pop()
        if place not in found:
            found.add(place)
            ahead += [near for near in neighbours(place) if near in places]
    return found == places


def is_cut_place(board, place):
    return height(board, place) == 1 and not is_one_hive(other for other in board if other != place)


def is_blocked(board, place, index):
    """Whether a gate of two higher stacks blocks the step in the direction of this index."""
    higher = max(height(board, place), height(board, toward(place, AROUND[index])))
    gate = [height(board, toward(place, AROUND[(index + turn) % 6])) for turn in (1, 5)]
    return min(gate) > higher


def ground_steps(board, place):
    if place in board:
        return
    for index, way in enumerate(AROUND):
        goal = toward(place, way)
        if goal not in board:
            touched = [toward(place, AROUND[(index + turn) % 6]) in board for turn in (1, 5)]
            if touched.count(True) == 1:
                yield goal


def climbing_steps(board, place):
    for index, way in enumerate(AROUND):
        goal = toward(place, way)
        if (place in board or goal in board) and not is_blocked(board, place, index):
            yield goal


def reach(board, start, kind):
    """Where a bug of this kind goes from a place, on the board from which it was lifted."""
    goals = set()
    if kind in "QP":
        goals.update(ground_steps(board, start))
    elif kind == "B":
        goals.update(ground_steps(board, start))
        goals.update(climbing_steps(board, start))
    elif kind == "G":
        for way in AROUND:
            steps = 1
            while toward(start, way, steps) in board:
                steps += 1
            if steps > 1:
                goals.add(toward(start, way, steps))
    elif kind == "A":
        ahead = [start]
        while ahead:
            for goal in ground_steps(board, ahead.pop()):
                if goal not in goals:
                    goals.add(goal)
                    ahead.append(goal)
    elif kind == "S":
        ways = [(start,)]
        for _ in range(3):
            ways = [way + (goal,) for way in ways for goal in ground_steps(board, way[-1]) if goal not in way]
        goals.update(way[-1] for way in ways)
    elif kind == "L":
        for first in climbing_steps(board, start):
            if first in board:
                for second in climbing_steps(board, first):
                    if second in board:
                        goals.update(goal for goal in climbing_steps(board, second) if goal not in board)
    elif kind == "M":
        if start in board:
            goals = reach(board, start, "B")
        else:
            kinds = {top(board, near)[1] for near in neighbours(start) if near in board}
            for copied in kinds - {"M"}:
                goals |= reach(board, start, copied)
    goals.discard(start)
    return goals


class Position:
    def __init__(self, game_type, board, side, turn, rest):
        self.game_type, self.board, self.side, self.turn, self.rest = game_type, board, side, turn, rest
        self.known_moves = None

    @staticmethod
    def opening(game_type):
        return Position(game_type, {}, "w", 1, None)

    def is_of_type(self, piece):
        return piece[1] not in "MLP" or piece[1] in self.game_type[5:]

    def in_hand(self, piece):
        return self.is_of_type(piece) and where(self.board, piece) is None

    def is_surrounded(self, side):
        place = where(self.board, side + "Q")
        return place is not None and all(near in self.board for near in neighbours(place))

    def state(self):
        white, black = self.is_surrounded("w"), self.is_surrounded("b")
        if white and black:
            return "Draw"
        if black:
            return "WhiteWins"
        if white:
            return "BlackWins"
        return "NotStarted" if (self.turn, self.side) == (1, "w") else "InProgress"

    def is_over(self):
        return self.state() in ("Draw", "WhiteWins", "BlackWins")

    def open_places(self):
        if not self.board:
            return [(0, 0)]
        beside = {near for place in self.board for near in neighbours(place)} - set(self.board)
        if all(piece[0] != self.side for stack in self.board.values() for piece in stack):
            return beside
        places = []
        for place in beside:
            sides = {top(self.board, near)[0] for near in neighbours(place) if near in self.board}
            if sides == {self.side}:
                places.append(place)
        return places

    def placements(self):
        places = None
        for number, name in enumerate(NAMES):
            piece = self.side + name
            smaller = any(other[0] == name[0] and self.in_hand(self.side + other) for other in NAMES[:number])
            if not self.in_hand(piece) or smaller:
                continue
            if name == "Q" and self.turn == 1:
                continue
            if name != "Q" and self.turn >= 4 and self.in_hand(self.side + "Q"):
                continue
            places = self.open_places() if places is None else places
            yield from ((piece, place) for place in places)

    def walks(self):
        for place, stack in self.board.items():
            piece = stack[-1]
            if piece[0] == self.side and piece != self.rest and not is_cut_place(self.board, place):
                yield from ((piece, goal) for goal in reach(without(self.board, piece), place, piece[1]))

    def throws(self):
        for place, stack in self.board.items():
            thrower = stack[0]
            if len(stack) > 1 or thrower[0] != self.side or thrower == self.rest:
                continue
            touches = any(top(self.board, near)[1] == "P" for near in neighbours(place) if near in self.board)
            if not (thrower[1] == "P" or thrower[1] == "M" and touches):
                continue
            for index, way in enumerate(AROUND):
                start = toward(place, way)
                if height(self.board, start) != 1 or top(self.board, start) == self.rest:
                    continue
                thrown = top(self.board, start)
                rest = without(self.board, thrown)
                if is_cut_place(self.board, start) or is_blocked(rest, start, (index + 3) % 6):
                    continue
                for goal_index, goal_way in enumerate(AROUND):
                    goal = toward(place, goal_way)
                    if goal not in rest and goal != start and not is_blocked(rest, place, goal_index):
                        yield thrown, goal

    def moves(self):
        """The legal moves in order: by piece, then q, then r; the pass is None. They are found once."""
        if self.known_moves is None:
            self.known_moves = self.find_moves()
        return self.known_moves

    def find_moves(self):
        if self.is_over():
            return []
        found = set(self.placements())
        if where(self.board, self.side + "Q") is not None:
            found.update(self.walks())
            found.update(self.throws())
        return sorted(found, key=lambda move: (ORDER[move[0]], move[1])) or [None]

    def after(self, move):
        board = self.board
        if move is not None:
            board = without(board, move[0])
            board[move[1]] = board.get(move[1], []) + [move[0]]
        other = "b" if self.side == "w" else "w"
        return Position(self.game_type, board, other, self.turn + (self.side == "b"), move and move[0])

    def evaluation(self):
        def round_queen(side):
            place = where(self.board, side + "Q")
            return 0 if place is None else sum(near in self.board for near in neighbours(place))

        other = "b" if self.side == "w" else "w"
        worth = 40 * (round_queen(other) - round_queen(self.side))
        for place, stack in self.board.items():
            piece = stack[-1]
            if piece != self.rest and not is_cut_place(self.board, place):
                worth += WEIGHTS[piece[1]] * (1 if piece[0] == self.side else -1)
        return worth

    def value(self, depth):
        state = self.state()
        if state == "Draw":
            return 0
        if state in ("WhiteWins", "BlackWins"):
            return (1000000 + depth) * (1 if (state == "WhiteWins") == (self.side == "w") else -1)
        if depth == 0:
            return self.evaluation()
        return max(-self.after(move).value(depth - 1) for move in self.moves())

    def best(self, depth):
        return max(self.moves(), key=lambda move: -self.after(move).value(depth - 1))

    def lists(self, plies):
        """How many lists of so many legal moves there are."""
        if plies == 0:
            return 1
        moves = self.moves()
        return len(moves) if plies == 1 else sum(self.after(move).lists(plies - 1) for move in moves)

    def text(self, move):
        """The one spelling of a move that is written."""
        if move is None:
            return "pass"
        piece, place = move
        if not self.board:
            return piece
        board = without(self.board, piece)
        if place in board:
            return f"{piece} {top(board, place)}"
        for way, form in [(WEST, "{}-"), (EAST, "-{}"), (SOUTHWEST, "{}/"), (NORTHEAST, "/{}"), (NORTHWEST, "{}\\"), (SOUTHEAST, "\\{}")]:
            if toward(place, way) in board:
                return piece + " " + form.format(top(board, toward(place, way)))
        raise AssertionError("the place touches nothing")

    def read(self, text):
        """The move that a text denotes, or the fault line of a session."""
        if text == "pass":
            return None
        piece, space, goal = text.partition(" ")
        name = goal.strip("-/\\") if space else None
        if piece not in ORDER or space and (name not in ORDER or len(goal) > len(name) + 1):
            raise Refusal("invalidmove 1 unreadable")
        if not self.is_of_type(piece) or not space and self.board:
            raise Refusal("invalidmove 1 unreadable")
        if not space:
            return piece, (0, 0)
        at = where(without(self.board, piece), name)
        if at is None:
            raise Refusal(f"invalidmove 2 not in play {name}")
        if goal == name:
            return piece, at
        way = BEHIND[goal[-1]] if goal.startswith(name) else BEFORE[goal[0]]
        return piece, toward(at, way)


class Refusal(Exception):
    """A line that refuses a command or a game string."""


def is_number(text, least, most):
    return text.isascii() and text.isdigit() and len(text) <= len(str(most)) and str(int(text)) == text and least <= int(text) <= most


class Play:
    """A game: its type, its moves, the positions and texts on the way, and whether a third repetition ends it."""

    def __init__(self, game_type, repetition=False):
        self.positions, self.texts, self.repetition = [Position.opening(game_type)], [], repetition

    def position(self):
        return self.positions[-1]

    def make(self, move):
        self.texts.append(self.position().text(move))
        self.positions.append(self.position().after(move))

    def undo(self, plies):
        del self.positions[-plies:]
        del self.texts[-plies:]

    def outcome(self):
        last = self.position()
        if self.repetition and not last.is_over():
            times = sum((one.board, one.side, one.rest) == (last.board, last.side, last.rest) for one in self.positions)
            if times >= 3:
                return "Draw"
        return last.state()

    def is_over(self):
        return self.outcome() in ("Draw", "WhiteWins", "BlackWins")

    def turn(self):
        position = self.position()
        return f"{'White' if position.side == 'w' else 'Black'}[{position.turn}]"

    def string(self):
        position = self.position()
        return ";".join([position.game_type, self.outcome(), self.turn()] + self.texts)


def read_turn(text):
    for side in ("White", "Black"):
        if text.startswith(side + "[") and text.endswith("]") and is_number(text[6:-1], 1, 999999999):
            return True
    return False


def read_game(text, repetition=False):
    """The game that a game string is under the rule, or the reason why it is none, as a refusal."""
    parts = text.split(";")
    if parts[0] not in TYPES:
        raise Refusal("4 malformed part 1")
    play = Play(parts[0], repetition)
    if len(parts) == 1:
        return play
    if parts[1] not in ("NotStarted", "InProgress", "Draw", "WhiteWins", "BlackWins"):
        raise Refusal("4 malformed part 2")
    if len(parts) == 2 or not read_turn(parts[2]):
        raise Refusal("4 malformed part 3")
    moves = parts[3:]
    if "" in moves:
        raise Refusal(f"4 malformed part {moves.index('') + 4}")
    if len(moves) > MOST_PLIES:
        raise Refusal("11 too many plies")
    for number, text in enumerate(moves, 1):
        try:
            move = play.position().read(text)
        except Refusal:
            raise Refusal(f"6 illegal move {number}") from None
        if play.is_over() or move not in play.position().moves():
            raise Refusal(f"6 illegal move {number}")
        play.make(move)
    if play.outcome() != parts[1]:
        raise Refusal("5 other state")
    if play.turn() != parts[2]:
        raise Refusal("5 other turn")
    return play


class Session:
    """The answers to lines, as lists of lines without the last one, `ok`."""

    LIMITS = {"Table": (65536, 1, 1048576), "Workers": (1, 1, 16), "Repetition": (0, 0, 1)}

    def __init__(self):
        self.play = None
        self.options = {name: limits[0] for name, limits in self.LIMITS.items()}

    def answer(self, line):
        """The answer to a line of bytes without its LF, or None where the line ends the run."""
        if len(line) > 65536:
            return ["err 10 line too long"]
        line = line.removesuffix(b"\r").decode("latin-1").strip(" ")
        word, _, rest = line.partition(" ")
        try:
            return self.command(word, rest.strip(" "))
        except Refusal as refusal:
            return [str(refusal)]

    def command(self, word, rest):
        if word in ("info", "pass", "validmoves", "exit"):
            self.must(rest == "", "err 2 wrong arguments")
        if word == "exit":
            return None
        if word == "info":
            return ["id HiveReferee 1.0", "Mosquito;Ladybug;Pillbug"]
        if word == "newgame":
            return self.newgame(rest or "Base")
        if word == "play":
            self.must(rest != "", "err 2 wrong arguments")
            return self.move(rest)
        if word == "pass":
            return self.move("pass")
        if word == "validmoves":
            position = self.open_position()
            return [";".join(position.text(move) for move in position.moves())]
        if word == "bestmove":
            return self.bestmove(rest)
        if word == "undo":
            self.must(rest == "" or is_number(rest, 1, 999999999), "err 2 wrong arguments")
            return self.undo(int(rest or "1"))
        if word == "options":
            return self.option([word for word in rest.split(" ") if word])
        raise Refusal("err 1 unknown command")

    @staticmethod
    def must(holds, refusal):
        if not holds:
            raise Refusal(refusal)

    def newgame(self, text):
        try:
            self.play = read_game(text, self.options["Repetition"] == 1)
        except Refusal as reason:
            raise Refusal(f"err {reason}") from None
        return [self.play.string()]

    def move(self, text):
        self.must(self.play, "err 3 no game")
        position = self.play.position()
        self.must(not self.play.is_over(), "invalidmove 4 game over")
        self.must(len(self.play.texts) < MOST_PLIES, "err 11 too many plies")
        move = position.read(text)
        self.must(move in position.moves(), "invalidmove 3 not legal")
        self.play.make(move)
        return [self.play.string()]

    def open_position(self):
        self.must(self.play, "err 3 no game")
        self.must(not self.play.is_over(), "err 8 game over")
        return self.play.position()

    def bestmove(self, rest):
        word, _, value = rest.partition(" ")
        value = value.strip(" ")
        self.must(word == "depth" and is_number(value, 1, 64), "err 2 wrong arguments")
        position = self.open_position()
        return [position.text(position.best(int(value)))]

    def undo(self, plies):
        self.must(self.play, "err 3 no game")
        self.must(plies <= len(self.play.texts), "err 7 undo beyond start")
        self.play.undo(plies)
        return [self.play.string()]

    def option(self, words):
        def line(name):
            return ";".join([name, "int"] + [str(number) for number in (self.options[name],) + self.LIMITS[name]])

        if not words:
            return [line(name) for name in self.LIMITS]
        self.must((words[0], len(words)) in (("get", 2), ("set", 3)), "err 2 wrong arguments")
        self.must(words[1] in self.LIMITS, "err 9 no such option")
        if words[0] == "set":
            _, least, most = self.LIMITS[words[1]]
            self.must(is_number(words[2], least, most), "err 9 value out of range")
            self.options[words[1]] = int(words[2])
        return [line(words[1])]
