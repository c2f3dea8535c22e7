"""Hive in Python's own process: the rules and the search, over the shared library.

    hive = Hive()
    hive.moves("Base")            # 'wS1;wB1;wA1;wG1;wQ' or so, as `validmoves` lists them
    hive.after("Base", "wS1")     # 'Base;InProgress;Black[1];wS1'

Each method is the function of its name in c/hive_library.h, and answers its text; where the status is not 0, it raises a HiveError, whose
status is that of the header.
"""
import ctypes
import pathlib


class HiveError(Exception):
    """A call that is not done: `status` is 1 to 15, as c/hive_library.h names them, but for 9, and `text` says why where there is a text."""

    def __init__(self, name, status, text=""):
        super().__init__(f"{name}: {status}")
        self.status, self.text = status, text


class Hive:
    """The library. Its methods may be called by several threads at once."""

    def __init__(self, path=None):
        """Loads the shared library at a path: with none the one beside this file, where pip puts it, or in the folder lib beside it."""
        here = pathlib.Path(__file__).resolve().parent
        beside = [it / "libhive_library.so" for it in (here, here / "lib")]
        self._library = ctypes.CDLL(str(path or next((it for it in beside if it.exists()), beside[0])))

    def _call(self, name, *given, room=1 << 14):
        """The text that a function puts, for texts and numbers; a room that is too short is made longer once."""
        function = getattr(self._library, "hive_library_" + name)
        words = []
        for item in given:
            words += [ctypes.c_uint32(item)] if isinstance(item, int) else [bytes(item, "utf-8"), ctypes.c_size_t(len(bytes(item, "utf-8")))]
        needed = ctypes.c_size_t(0)
        while True:
            text = ctypes.create_string_buffer(room)
            status = function(*words, text, ctypes.c_size_t(room), ctypes.byref(needed))
            if status == 0:
                return text.raw[: needed.value].decode("ascii")
            if status != 9:
                raise HiveError(name, status, text.raw[: needed.value].decode("ascii"))
            room = needed.value

    def version(self):
        """The name and the version of the library."""
        return self._call("version")

    def written(self, line):
        """The written form of the game that the line is."""
        return self._call("written", line)

    def moves(self, line):
        """The legal moves of the game that the line is, joined by semicolons."""
        return self._call("moves", line)

    def after(self, line, move):
        """The written form of the game behind a move."""
        return self._call("after", line, move)

    def best(self, line, depth):
        """The best move so many plies deep, from 1 to 64."""
        return self._call("best", line, depth)

    def count(self, game, plies):
        """For each number of plies from 1 to this, at most 8, how many lists of so many legal moves there are, a line each."""
        return self._call("count", game, plies)

    def certify(self, game, depth):
        """The certificate of the best move so many plies deep, from 1 to 64."""
        return self._call("certify", game, depth, room=1 << 20)

    def check(self, certificate):
        """`accepted`, where the certificate holds; else a HiveError, of status 1 or 6, whose text says why."""
        return self._call("check", certificate)

    def solve(self, game, plies):
        """Whether the side to move can force a win within so many plies, from 1 to 16, and the indices that show it."""
        return self._call("solve", game, plies, room=1 << 20)

    def verify(self, solution):
        """`accepted`, where the solution holds; else a HiveError, of status 1 or 6, whose text says why."""
        return self._call("verify", solution)
