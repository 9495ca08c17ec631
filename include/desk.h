/*
 * The desk: four benches, two sheets of nineteen items, each with a count of accepted entries, and
 * a log. Benches 0 and 1 fill sheet 0, benches 2 and 3, of the visitors, sheet 1; they share the
 * log.
 *
 * Link with libexport_desk.a. The rules are those of document 01 and of document 02, No. 1, 2, 4,
 * and 6 to 13.
 *
 * Memory: a desk lives in two runs that the caller lends to every call, `texts` of DESK_TEXTS bytes
 * and `numbers` of DESK_NUMBERS numbers; zeros in both are a fresh desk. Its log is a run of bytes,
 * at most DESK_LOG of them, of any content. Between calls nobody else writes them. Runs of any
 * other length are no desk: every call then answers 2 and changes nothing (but first desk_key
 * answers 1 where the bench is not there, all that name a sheet 12 where it is not, and then
 * desk_report 21 where the profile is not).
 *
 * A run is a pointer and a length, in elements. It may hold anything. No pointer may be NULL, not
 * even where the length is 0; for an empty run pass the address of any element. Runs that are lent
 * to one call may not overlap. They are read and written during the call only.
 *
 * Threads: the functions keep no state and allocate nothing; calls on different memory may run at
 * once.
 */
#ifndef DESK_H
#define DESK_H

#include <stddef.h>
#include <stdint.h>

#ifdef __cplusplus
extern "C" {
#endif

#define DESK_BENCHES 4
#define DESK_SHEETS 2
#define DESK_ITEMS 19
#define DESK_ROWS 25
#define DESK_PROFILES 2    /* 0 single-crystal, 1 powder */
#define DESK_LINE 200    /* the bytes of the longest line, and of a slot of texts */
#define DESK_LOG 65536   /* the longest log */
#define DESK_NO_BENCH 255

/*
 * Lent to desk_file, always enough: data_ and a byte 10, a block name of 32, and the longest line with
 * its byte 10 for each item; 3857.
 */
#define DESK_FILE (6 + 32 + DESK_ITEMS * (DESK_LINE + 1))

/*
 * The layout. Texts: a slot for the line of each bench, then for each sheet one for the value of each
 * item; bytes after a text's end are zero. Numbers: the length of each bench's line; then a block for
 * each sheet: for each item its length, entry number, bench and how many accepted entries of the sheet
 * named it, side by side, all zero where it is empty, and after them the count of the sheet's accepted
 * entries; at last how many bytes of the log are used. 8400 texts and 159 numbers.
 *
 * What stands for sheet 0 at a slot or number below stands for sheet 1 so many further on: DESK_ITEMS
 * slots, or DESK_SHEET_NUMBERS numbers.
 *
 * A desk that was saved with eighteen items on each sheet has 8000 texts, one that was saved with ten
 * 4800, one that was saved with one sheet 2800, one that was saved when lines had 80 bytes 1120. None of
 * them is a desk any more: every call answers 2, but for 1, 12 and 21 as above, and leaves it as it is.
 */
#define DESK_TEXTS ((DESK_BENCHES + DESK_SHEETS * DESK_ITEMS) * DESK_LINE)
#define DESK_ITEM_NUMBERS 4
#define DESK_SHEET_NUMBERS (DESK_ITEMS * DESK_ITEM_NUMBERS + 1)
#define DESK_ITEMS_SLOT DESK_BENCHES    /* the slot of sheet 0's item 1 */
#define DESK_ITEMS_AT DESK_BENCHES      /* the numbers of sheet 0's item 1 */
#define DESK_COUNT_AT (DESK_ITEMS_AT + DESK_ITEMS * DESK_ITEM_NUMBERS)    /* the count of sheet 0 */
#define DESK_USED_AT (DESK_ITEMS_AT + DESK_SHEETS * DESK_SHEET_NUMBERS)
#define DESK_NUMBERS (DESK_USED_AT + 1)

/*
 * Makes the memory a fresh desk.
 *   2  the memory is no desk: nothing is changed
 *   0  done
 */
uint8_t desk_fresh(uint8_t *texts, size_t texts_length, size_t *numbers, size_t numbers_length);

/*
 * One key of a bench. 32 to 126 are appended to the bench's line, 8 erases its last byte, 24
 * empties it, 10 is Enter, which stores the value on the bench's sheet, writes its record to the
 * log and empties the line. The bench whose entry first fills an item of a sheet owns it there,
 * also where that value was ? or . for unassigned. The first that applies:
 *   1  the bench is not 0 to 3
 *   2  the memory is no desk, or the desk is not sound, or not with this log
 *   3  the byte is no key
 *   4  a byte to append meets a line of 200
 *   5  Enter: the line is not a name, spaces and a value
 *   6  Enter: the name is none of the nineteen
 *   7  Enter: the value fails its item's kind
 *   9  Enter: the item is owned by the other bench of its sheet
 *   8  Enter: the record is longer than the unused part of the log
 *   0  accepted
 * A refusal changes nothing.
 */
uint8_t desk_key(uint8_t *texts, size_t texts_length, size_t *numbers, size_t numbers_length,
                 uint8_t *log, size_t log_length, uint64_t bench, uint8_t byte);

/* A row: level 0 none, 1 General, 2 C, 3 B, 4 A; reason 0 judged, 1 missing, 2 not judgeable. */
typedef struct {
    uint8_t level;
    uint8_t reason;
} desk_row;

typedef struct {
    uint8_t answer;
    desk_row rows[DESK_ROWS];
} desk_reported;

/*
 * Rows 1 to 25 of a sheet, under a profile: for powder rows 13 to 18, 20 and 21 have level 0, reason 0,
 * and all others are those of single-crystal. The first that applies:
 *   12  the sheet is not 0 or 1
 *   21  the profile is not 0 or 1
 *   2   the memory is no desk, or the desk is not sound
 *   0   answered
 * With a refusal all rows have level 0, reason 0.
 */
desk_reported desk_report(const uint8_t *texts, size_t texts_length, const size_t *numbers,
                          size_t numbers_length, uint64_t sheet, uint64_t profile);

typedef struct {
    size_t entry;
    size_t times;
    uint8_t answer;
    uint8_t bench;
} desk_told;

/*
 * Who typed an item of a sheet: the bench and the number of its last entry among the sheet's, and
 * how many accepted entries of the sheet named the item ("typed 3 times"), which on a desk grown
 * from a fresh one is how many records of its benches in the used log do; for an empty item, and
 * with a refusal, bench 255, entry 0 and times 0. The first that applies:
 *   12  the sheet is not 0 or 1
 *   2   the memory is no desk, or the desk is not sound
 *   6   the item is not 1 to 19
 *   0   answered
 */
desk_told desk_who(const uint8_t *texts, size_t texts_length, const size_t *numbers,
                   size_t numbers_length, uint64_t sheet, uint64_t item);

typedef struct {
    size_t count;
    uint8_t answer;
} desk_filed;

/*
 * Writes a sheet as a CIF file at the start of out, and says how many bytes it has. The first that
 * applies:
 *   12  the sheet is not 0 or 1
 *   2   the memory is no desk, or the desk is not sound
 *   11  the block name is not 1 to 32 letters, digits or -
 *   10  the file is longer than out
 *   0   written
 * With a refusal the count is 0 and no byte of out is written; otherwise none after the file.
 */
desk_filed desk_file(const uint8_t *texts, size_t texts_length, const size_t *numbers,
                     size_t numbers_length, uint64_t sheet, const uint8_t *name, size_t name_length,
                     uint8_t *out, size_t out_length);

/*
 * A log's reader lives in a desk's two runs and two more that are lent with them: `kept` of DESK_KEPT
 * bytes, in which the bytes of a record lie that is not whole yet, and `state` of DESK_STATE numbers,
 * how many bytes are kept and how the reading stands: 0 it goes on, 1 it ended with 0, 18, 19 or 20 it
 * was refused so. Zeros in all four are a fresh reader. The desk's used number is the byte where the
 * record starts that is being read.
 */
#define DESK_KEPT (6 + DESK_LINE)    /* the longest record */
#define DESK_STATE 2

typedef struct {
    size_t place;
    uint8_t answer;
} desk_fed;

/*
 * Reads the next part of a log, of any length, none too, into both sheets of the desk; any last but
 * 0 marks the last part. However a log is cut, the sheets and the final answer are those of reading
 * it whole. A record is taken as its Enter was: on its bench's sheet, with the next entry number.
 * The first that applies:
 *   2   the memory is no desk or no reader, or the desk is not sound with the record's start as
 *       used in a log of 65536, or the kept bytes already decide a record: nothing is changed
 *       the reading is over: the answer that ended it, and nothing is changed
 *   18  a record is none: its length is not 7 to 206, or its kind not 1, its bench not 0 to 3, its
 *       item not 1 to 19, its value not well formed, of its kind and of bytes 32 to 126, or longer
 *       than a line takes, or it ends beyond byte 65536
 *   19  a record's item is owned by the other bench of its sheet
 *   20  the last part ends inside a record; given only there
 *   0   read on, or with the last part to the end
 * With 18, 19 and 20 the sheets hold the records before the refused one, whose first byte, counted
 * from 0, is the place; otherwise the place is 0. After a last part with 0 the desk's used number
 * is the log's length: the desk can go on with that log.
 */
desk_fed desk_feed(uint8_t *texts, size_t texts_length, size_t *numbers, size_t numbers_length,
                   uint8_t *kept, size_t kept_length, size_t *state, size_t state_length,
                   const uint8_t *part, size_t part_length, uint8_t last);

typedef struct {
    size_t count;
    uint8_t answer;
} desk_proposed;

/*
 * The hydrogen helper: the smallest count of hydrogens, 0 to 9999, that is right. Right is a count
 * with which the sheet's formula, all other terms kept in their order, is a text of at most 176
 * bytes and has rows 1, 2 and 4 at level 0 for the sheet's weight; 0 drops the term, 1 is written
 * H, and where there is no term it is put at the one place that row 2 allows. The first that
 * applies:
 *   12  the sheet is not 0 or 1
 *   2   the memory is no desk, or the desk is not sound
 *   22  rows 1 or 2 of the formula are not at level 0, or a symbol has no weight, or the weight is
 *       missing
 *   23  no count is right
 *   0   answered
 * With a refusal the count is 0. The sheet stays as it is.
 */
desk_proposed desk_hydrogens(const uint8_t *texts, size_t texts_length, const size_t *numbers,
                             size_t numbers_length, uint64_t sheet);

/*
 * The check of a proposed count, of any size: 24 where it is not right, otherwise 0 and the count;
 * before that 12, 2 and 22 as above. With a refusal the count is 0.
 */
desk_proposed desk_hydrogens_right(const uint8_t *texts, size_t texts_length, const size_t *numbers,
                                   size_t numbers_length, uint64_t sheet, uint64_t count);

#ifdef __cplusplus
}
#endif

#endif
