/* Gelquorist from C: the search for the places of a figure in a patch, the check of rows that come
 * from elsewhere, and the reader and the writer of sheets. Link libexports.a, which `rt lib`, called
 * in crates/exports, writes to out/ there (x86-64).
 *
 * Every promise below is proved of the library, for all inputs; none of the calls has a
 * precondition beyond what C itself asks: each pointer is valid for its length (any pointer not
 * null will do where the length is 0), what is lent to be written overlaps nothing else lent, and no
 * other thread writes what is lent while the call runs. The library allocates nothing, keeps no
 * pointer and no state, and makes no system call.
 *
 * A sheet is bit-packed, most significant bit first: n (10 bits), m (12), n kinds (6 each), m lines
 * of type (2), first end (9), second end (9), then zero bits to the end of the last byte.
 *
 * Every answer has a line. With 14, 15, 24 and 25 it is the number of the offending line, counted from
 * 0: the first line of that sheet, or of the writer's line list, whose check fails, so that every
 * line before it is good. In every other answer, accepted ones too, it is GELQUORIST_NO_LINE.
 */
#ifndef GELQUORIST_H
#define GELQUORIST_H

#include <stddef.h>
#include <stdint.h>

#ifdef __cplusplus
extern "C" {
#endif

/* The numbers that come back. 11 to 16 concern the figure, 21 to 25 a patch or the sheet read or
 * written. Each is given exactly when its check is the first to fail. */
enum {
    GELQUORIST_COMPLETE = 0,        /* every place is listed */
    GELQUORIST_LIST_FULL = 1,       /* a further place was reached and had no room */
    GELQUORIST_TRIES_SPENT = 2,     /* a further try was due and the allowance was used up */
    GELQUORIST_FIGURE_LENGTH = 11,  /* under 3 bytes, or not the length its counts give */
    GELQUORIST_FIGURE_COUNT = 12,   /* n not 1 to 32, or m not 0 to 64 */
    GELQUORIST_FIGURE_FILLING = 13, /* a filling bit set */
    GELQUORIST_FIGURE_LINE = 14,    /* a line of type 3, an end not below n, first not below second */
    GELQUORIST_FIGURE_ORDER = 15,   /* a line not after the one before it */
    GELQUORIST_FIGURE_APART = 16,   /* figure not connected */
    GELQUORIST_PATCH_LENGTH = 21,   /* as 11 */
    GELQUORIST_PATCH_COUNT = 22,    /* n not 1 to 512, or m not 0 to 2048 */
    GELQUORIST_PATCH_FILLING = 23,  /* as 13 */
    GELQUORIST_PATCH_LINE = 24,     /* as 14 */
    GELQUORIST_PATCH_ORDER = 25,    /* as 15 */
    GELQUORIST_MEMORY = 31,         /* working memory too short */
    GELQUORIST_OUTPUT = 33,         /* reader's or writer's lent output too short */
    GELQUORIST_THIRDS = 34,         /* writer's line list not a multiple of three */
    GELQUORIST_KIND = 35,           /* writer's kind above 63 */
    GELQUORIST_PART_ROW = 42,       /* list of rows not a whole number of rows */
    GELQUORIST_NOT_A_PLACE = 43,    /* a row is not a place */
    GELQUORIST_REPEATED = 44        /* a row equals an earlier row */
};

enum {
    GELQUORIST_MEMORY_LENGTH = 22528, /* the least working memory, in 16-bit numbers */
    GELQUORIST_SHEET_LENGTH = 5507,   /* the longest sheet, in bytes */
    GELQUORIST_NO_LINE = 65535        /* the line of an answer that is about no line */
};

struct gelquorist_found {
    uint16_t number; /* 0, 1, 2, 11 to 16, 21 to 25 or 31 */
    uint16_t line;   /* of the figure with 14 and 15, of the patch with 24 and 25; else 65535 */
    size_t rows;     /* rows written */
    uint32_t tries;  /* tries spent, at most the allowance */
};

/* Lists the places of a figure in a patch.
 *
 * - Each row has one entry for each figure vertex: entry i is the patch vertex on which figure
 *   vertex i lies. Kinds are equal, different figure vertices lie on different patch vertices, and
 *   every figure line lies on a patch line, whatever the types. Every row is such a place, and no
 *   two rows are equal.
 * - Rows ascend by their entries taken in matching order. The list has room for list_length / n
 *   rows; the rows lie from its start, and the rest of it is untouched.
 * - number 0: every place is listed. 1: the list is full and there is a further place. 2: tries
 *   equals the allowance and a further try was due.
 * - With more room or a larger allowance the rows begin with these rows, and an answer with number 0
 *   stays as it is. An allowance of the number of partial placements never ends in 2.
 * - On 0, 1 and 2 all memory_length numbers of the memory are zero. What they held before makes no
 *   difference.
 * - From 11 up, rows and tries are 0 and nothing lent is changed. Order: the figure's checks, the
 *   patch's, then 31 where memory_length is below 22528.
 * - line: the first line of the figure (14, 15) or of the patch (24, 25) whose check fails, counted
 *   from 0; 65535 with every other number.
 */
struct gelquorist_found gelquorist_find(const uint8_t *figure, size_t figure_length,
                                        const uint8_t *patch, size_t patch_length,
                                        uint16_t *memory, size_t memory_length,
                                        uint16_t *list, size_t list_length,
                                        uint32_t allowance);

struct gelquorist_checked {
    uint16_t number; /* 0, 11 to 16, 21 to 25 or 42 to 44 */
    uint16_t line;   /* of the figure with 14 and 15, of the patch with 24 and 25; else 65535 */
    size_t row;      /* the first bad row, counted from 0; 0 in every answer but 43 and 44 */
};

/* Checks a list of rows, in whatever order and whoever made them.
 *
 * - number 0: every row is a place of the figure in the patch, as said of gelquorist_find, and no
 *   two rows are equal. It says nothing of places that the list lacks.
 * - 43: row is the first bad row and is not a place. 44: row is the first bad row, and a place, and
 *   equal to an earlier row. Every row before it is a place, and no two of those are equal.
 * - Order: the figure's checks, the patch's, 42 where rows_length is no multiple of the figure's n,
 *   then row by row 43 before 44.
 * - line: as said of gelquorist_find; 65535 with 42, 43 and 44.
 * - Whatever gelquorist_find lists is accepted: rows * n numbers of its list after 0, 1 or 2.
 * - Nothing lent is written, and no memory is asked for: the call uses some 48,000 bytes of the
 *   stack.
 */
struct gelquorist_checked gelquorist_check_rows(const uint8_t *figure, size_t figure_length,
                                                const uint8_t *patch, size_t patch_length,
                                                const uint16_t *rows, size_t rows_length);

struct gelquorist_read {
    uint16_t number;   /* 0, 21 to 25 or 33 */
    uint16_t line;     /* of the sheet with 24 and 25; else 65535 */
    uint16_t vertices; /* n */
    uint16_t lines;    /* m */
};

/* Reads a sheet within patch limits.
 *
 * - number 0: the first n numbers of kinds are the kinds, the first 3m of lines are type, first and
 *   second end of each line, and nothing else is changed. gelquorist_write gives the same sheet back.
 * - Otherwise vertices and lines are 0 and nothing is changed. Checks: 21 to 25, then 33 where kinds
 *   holds fewer than n or lines fewer than 3m numbers.
 * - line: the first line of the sheet whose check fails (24, 25), counted from 0; 65535 with every
 *   other number.
 */
struct gelquorist_read gelquorist_read(const uint8_t *sheet, size_t sheet_length,
                                       uint16_t *kinds, size_t kinds_length,
                                       uint16_t *lines, size_t lines_length);

struct gelquorist_written {
    uint16_t number; /* 0, 22, 24, 25, 33, 34 or 35 */
    uint16_t line;   /* of the line list with 24 and 25; else 65535 */
    size_t count;    /* bytes written */
};

/* Writes a sheet; n is kinds_length, m a third of lines_length.
 *
 * - number 0: the first count bytes are the sheet, and nothing else is changed. gelquorist_read gives
 *   the same kinds and lines back.
 * - Otherwise count is 0 and nothing is changed. Checks: 34, 22, 35, then 24 and 25 line by line,
 *   then 33 where bytes_length is below the sheet's length.
 * - line: the first line of the list whose check fails (24, 25), counted from 0 in lines, three
 *   numbers each; 65535 with every other number.
 */
struct gelquorist_written gelquorist_write(const uint16_t *kinds, size_t kinds_length,
                                           const uint16_t *lines, size_t lines_length,
                                           uint8_t *bytes, size_t bytes_length);

#ifdef __cplusplus
}
#endif

#endif
