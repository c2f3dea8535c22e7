/* The rules of Hive, the search, and the commands about counts, certificates and forced wins as a library.

   Every function reads a text, writes a text into the front of the room that its caller lends, with no zero behind it, and answers a
   status. It keeps nothing between calls, and tests all that it is given: a text may be any bytes, and a number any number.

   What a caller owes: no pointer is null, also where its length is 0; each length is true; the room and *needed overlap each other and
   the texts nowhere. A call takes memory by malloc, realloc and free, as heap.c says, and gives all of it back before it returns. Several
   threads may call at once; a handler of a signal must not, nor the forked child of a process with threads.

   *needed is the number of bytes of the text wherever there is one: where the status is HIVE_DONE or HIVE_ROOM_SHORT, and of the functions
   named for a command also where it is HIVE_BAD_INPUT, or HIVE_REFUSED of check and verify. Else it is 0. The room is written to
   only where there is a text and it fits, that is with these statuses but HIVE_ROOM_SHORT; behind the text it stays as it was.

   A line is a game string without its line feed, of at most 65,536 bytes: `Base+MLP`, or a type, state, turn and moves. An input is what the
   program reads of a file: lines, the last with its line feed or without. */
#ifndef HIVE_LIBRARY_H
#define HIVE_LIBRARY_H

#include <stddef.h>
#include <stdint.h>

#ifdef __cplusplus
extern "C" {
#endif

enum {
    HIVE_DONE = 0,          /* the text stands in the room */
    HIVE_REFUSED = 1,       /* the line is no game; of check and verify: the claim was not shown, and the text says where */
    HIVE_OUT_OF_RANGE = 2,  /* a number is out of its range */
    HIVE_BAD_INPUT = 6,     /* the input is not what the command reads, and the text says why: a line that begins with `bad` */
    HIVE_NO_MEMORY = 7,     /* there was not enough memory */
    HIVE_TOO_LONG = 8,      /* the input has 1,099,511,627,776 bytes or more */
    HIVE_ROOM_SHORT = 9,    /* the room is shorter than the text: *needed says how long that is */
    HIVE_UNREADABLE = 11,   /* the words are no move of the game's type */
    HIVE_NOT_IN_PLAY = 12,  /* the piece that the words refer to is not in play */
    HIVE_NOT_LEGAL = 13,    /* the move is not legal */
    HIVE_GAME_OVER = 14,    /* the game is over */
    HIVE_FULL_GAME = 15     /* the game has 5,000 moves, and none may follow */
};

/* The name and the version of the library: HIVE_DONE or HIVE_ROOM_SHORT. */
uint32_t hive_library_version(uint8_t *room, size_t room_length, size_t *needed);

/* The written form of the game that the line is, as `replay` writes it.
   HIVE_REFUSED: the line is no game. */
uint32_t hive_library_written(const uint8_t *line, size_t line_length, uint8_t *room, size_t room_length, size_t *needed);

/* The legal moves of the game that the line is, joined by semicolons, as `validmoves` lists them.
   HIVE_REFUSED: the line is no game. HIVE_GAME_OVER: it is over. */
uint32_t hive_library_moves(const uint8_t *line, size_t line_length, uint8_t *room, size_t room_length, size_t *needed);

/* The written form of the game behind the move of the words, as `play` answers it.
   HIVE_REFUSED: the line is no game. HIVE_GAME_OVER, HIVE_FULL_GAME, HIVE_UNREADABLE, HIVE_NOT_IN_PLAY, HIVE_NOT_LEGAL: why the move
   cannot be made. */
uint32_t hive_library_after(const uint8_t *line, size_t line_length, const uint8_t *words, size_t words_length, uint8_t *room,
                            size_t room_length, size_t *needed);

/* The best move so many plies deep, from 1 to 64, as `bestmove depth` names it.
   HIVE_OUT_OF_RANGE: so many plies are none or too many. HIVE_REFUSED: the line is no game. HIVE_GAME_OVER: it is over. */
uint32_t hive_library_best(const uint8_t *line, size_t line_length, uint32_t depth, uint8_t *room, size_t room_length, size_t *needed);

/* The commands: each reads an input and puts what the program's command of its name writes, with its status. A number out of its range is
   HIVE_OUT_OF_RANGE, whatever the input is. A room that is too short costs the whole work again, so lend a large one: a certificate is long.

   These three are asked about one game: the input is one line, a game that is not over. HIVE_BAD_INPUT: it is something else. */

/* For each number of plies from 1 to `plies`, at most 8, how many lists of so many legal moves the game can go on with, a line each. */
uint32_t hive_library_count(const uint8_t *input, size_t input_length, uint32_t plies, uint8_t *room, size_t room_length, size_t *needed);

/* The certificate of the best move so many plies deep, from 1 to 64. */
uint32_t hive_library_certify(const uint8_t *input, size_t input_length, uint32_t depth, uint8_t *room, size_t room_length, size_t *needed);

/* Whether the side to move can force a win within so many plies, from 1 to 16, and the indices that show it. */
uint32_t hive_library_solve(const uint8_t *input, size_t input_length, uint32_t plies, uint8_t *room, size_t room_length, size_t *needed);

/* Whether a certificate, of either version, or a solution holds. HIVE_DONE: the text is `accepted`, and the claim is true. HIVE_REFUSED: it
   is not shown. HIVE_BAD_INPUT: the input is no such text. The text is one line, and 64 bytes are room enough for it. */
uint32_t hive_library_check(const uint8_t *input, size_t input_length, uint8_t *room, size_t room_length, size_t *needed);
uint32_t hive_library_verify(const uint8_t *input, size_t input_length, uint8_t *room, size_t room_length, size_t *needed);

#ifdef __cplusplus
}
#endif
#endif
