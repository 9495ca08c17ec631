/*
 * What the keys come from: a serial line, a pseudo-terminal or a FIFO for each bench, or one input of
 * pairs. One that ends or fails is opened again when it comes back.
 */
#ifndef CAMP_INPUTS_H
#define CAMP_INPUTS_H

#include <stdbool.h>
#include <stddef.h>
#include <stdint.h>
#include <termios.h>

/*
 * Not there; open, and nothing came yet; in use; a file that was read to its end; the device of another
 * bench, which is not opened again.
 */
typedef enum { INPUT_AWAY, INPUT_WAITING, INPUT_THERE, INPUT_OVER, INPUT_REFUSED } input_state;

/* How many bytes of an input are read at a time, so that the others have their turn. */
enum { TURN = 64 };

typedef struct {
    const char *path;
    uint64_t bench;          /* DESK_NO_BENCH for pairs */
    speed_t speed;           /* of a serial line */
    int file;                /* -1 where it is not open */
    int held;                /* a FIFO that ended, until it is open anew; or -1 */
    input_state state;
    bool is_terminal;
    struct termios before;   /* its modes before it was opened here */
    bool once;               /* standard input, which is not opened again after its end */
    int64_t opened;          /* when it was opened, in milliseconds */
    int64_t again;           /* when it is opened again */
    const char *said;        /* what was last told of it; NULL for nothing */
    const char *why;         /* why it is not there; NULL before it was tried */
    uint8_t bytes[TURN];     /* what was read last */
    size_t length;
    size_t taken;            /* how many of these were taken; the next ones wait */
    uint64_t since;          /* among the inputs that wait, those with a lower number wait longer */
    uint8_t pair;            /* of a pair, the byte that came first */
    bool in_pair;
} input;

/* The speed of a serial line in bits a second; false where a terminal has no such speed. */
bool read_speed(const char *digits, speed_t *speed);

/* Milliseconds of a clock that only goes forward. */
int64_t now(void);

/* Opens an input that is away; NULL, or why not, and then it is tried again later. */
const char *open_input(input *in);

/* Whether two inputs that are open are the same device. */
bool same_input(const input *in, const input *other);

/* Why an input gives no more bytes now. */
typedef enum { READ_SOME, READ_LATER, READ_ENDED, READ_FAILED } read_result;

/*
 * Reads what is there, when all before was taken, without waiting. Where the input ended or failed (errno)
 * it is closed.
 */
read_result read_input(input *in);

/* Whether bytes that were read wait to be taken. */
bool is_left(const input *in);

/* Puts the modes of a terminal back and closes it. */
void close_input(input *in);

/* Closes the input of another bench for good: otherwise it would be this one's when the other ends. */
void refuse_input(input *in);

#endif
