/*
 * The weight board for callers in C, on x86-64 Linux: the listing of a script, and a step as a line of a script.
 *
 * Link libayokwelifu.a. Each function is proved to end and to touch nothing but what is lent to it. It returns 0, or
 * the number that refuses the call; a refusal leaves buffers and cells as they were.
 *
 * A pointer points to as many bytes as the length behind it says. It is never null, even where that length is 0, and
 * a cell is aligned for its type. Buffers and cells do not overlap each other or what is read.
 *
 * No function keeps a pointer, allocates memory or has state of its own: calls from several threads need no lock as
 * long as what they lend is their own. A listing uses some 172 KB of stack, a line less than 1 KB.
 *
 * Boards themselves do not pass: a caller keeps its steps as a script, and the listing says after each step whether
 * the sheet is complete.
 */
#ifndef AYOKWELIFU_H
#define AYOKWELIFU_H

#include <stddef.h>
#include <stdint.h>

#ifdef __cplusplus
extern "C" {
#endif

/* The kinds of a step. */
enum ayokwelifu_kind {
    AYOKWELIFU_START = 1,
    AYOKWELIFU_SEND = 2,
    AYOKWELIFU_REQUEST = 3,
    AYOKWELIFU_DELIVER = 4,
    AYOKWELIFU_REST = 5,
    AYOKWELIFU_TICK = 6,
    AYOKWELIFU_RELEASE = 7,
    AYOKWELIFU_MOVE = 8 /* the new parent in other */
};

/*
 * The numbers that refuse a call here, and the one that a listing tells of a move alone. README.md has these and all
 * others, with causes and cures.
 */
enum ayokwelifu_refusal {
    AYOKWELIFU_NO_SUCH_KIND = 16,
    AYOKWELIFU_LINE_TOO_LONG = 21,
    AYOKWELIFU_UNKNOWN_WORD = 22,
    AYOKWELIFU_WRONG_FIELD_COUNT = 23,
    AYOKWELIFU_NO_NUMBER = 24,
    AYOKWELIFU_BOARD_LINE = 25,
    AYOKWELIFU_NO_ROOM = 27,
    AYOKWELIFU_PADDED_NUMBER = 28,
    AYOKWELIFU_PARENT_NOT_LOWER = 47
};

/* No listing is longer, in bytes: a buffer of this size takes the listing of any script. */
#define AYOKWELIFU_LONGEST_LISTING 2424796

/* No step's line is longer, in bytes, its byte 10 included. */
#define AYOKWELIFU_LONGEST_STEP 23

/*
 * The length of the script's listing in bytes goes to *count. Returns 0: every script has a listing, also one that is
 * refused. It takes about as long as listing.
 */
uint16_t ayokwelifu_listing_length(const uint8_t *script, size_t script_length, uint64_t *count);

/*
 * The script's listing goes to the start of out, and its length to *count; the rest of out is left as it was.
 * Returns 0, or 27 where the listing does not fit in out, which is then left as it was. Where out has 38 bytes and 37
 * for each line of the script but the first, the listing surely fits and is made once; else its length is found first.
 */
uint16_t ayokwelifu_list(const uint8_t *script, size_t script_length, uint8_t *out, size_t out_length, uint64_t *count);

/*
 * A step goes as a line of a script to out from place at on, and the line's length, its byte 10 included, to *count;
 * the rest of out is left as it was. Fields that the kind has no letter for are not read. Returns 0, or 16 where there
 * is no such kind, then 27 where the line does not fit or the place is past the end of out.
 */
uint16_t ayokwelifu_write_step(uint16_t kind, uint16_t unit, uint16_t other, uint16_t slot, uint8_t *out,
                               size_t out_length, size_t at, uint64_t *count);

/*
 * The step that a line says, handed over without its byte 10, goes to the four cells, with 0 in the fields that its
 * kind has no letter for. What ayokwelifu_write_step wrote is read back as that step, and no other line is: a number
 * of two or more digits that begins with 0 is refused. Returns 0, or the number that refuses the line: the first of 21,
 * 22, 25 (a board line is no step), 23, 28 and 24 that holds.
 */
uint16_t ayokwelifu_read_step(const uint8_t *line, size_t line_length, uint16_t *kind, uint16_t *unit,
                              uint16_t *other, uint16_t *slot);

#ifdef __cplusplus
}
#endif

#endif
