/*
 * The wall screen: asks the proved library about lines, or about typed values, on standard input.
 * 'wall_screen --help' says how.
 */
#include <errno.h>
#include <inttypes.h>
#include <stdbool.h>
#include <stdio.h>
#include <stdlib.h>
#include <string.h>

#include "wall.h"

enum { EXIT_TROUBLE = 1, EXIT_USAGE = 2 };
enum { FIRST_ROOM = 256 };
enum { ACCEPTED = 0 };

static const char usage[] =
    "usage: wall_screen [--row ROW | --help]\n"
    "\n"
    "Reads standard input to its end and prints one line for each line of it.\n"
    "\n"
    "  (nothing)   Each input line is a typed line. Prints 0 accepted, 5 not a line,\n"
    "              6 no such name, 7 a value of the wrong kind. After 0 follows the\n"
    "              level (0 none, 2 C, 3 B, 4 A) where one row judges the number typed.\n"
    "  --row ROW   Each input line is a typed value. Prints ANSWER LEVEL: 0 and the level\n"
    "              by that row, 6 0 unless ROW is 6, 8 or 10, 7 0 for what is no number.\n"
    "  --help      Prints this.\n";

/* The items that one row judges by a single value. */
static const struct {
    const char *name;
    uint64_t row;
} judged[] = {
    {"_refine_ls_R_factor_gt", 6},   {"_refine_ls_R_factor_obs", 6},
    {"_refine_ls_wR_factor_ref", 8}, {"_refine_ls_wR_factor_obs", 8},
    {"_refine_ls_shift/su_max", 10}, {"_refine_ls_shift/esd_max", 10},
};

/* One input line; bytes is never NULL once room is there. */
typedef struct {
    uint8_t *bytes;
    size_t length;
    size_t room;
} text;

static int fail(const char *what)
{
    fprintf(stderr, "wall_screen: %s: %s\n", what, strerror(errno));
    return EXIT_TROUBLE;
}

static bool grow(text *line)
{
    size_t room = line->room == 0 ? FIRST_ROOM : 2 * line->room;
    uint8_t *bytes = room > line->room ? realloc(line->bytes, room) : NULL;
    if (bytes == NULL) {
        errno = ENOMEM;
        return false;
    }
    line->bytes = bytes;
    line->room = room;
    return true;
}

/* Reads up to the next newline, which is left out. 1: a line; 0: the input's end; -1: errno. */
static int read_line(text *line)
{
    int byte;
    line->length = 0;
    while ((byte = getchar()) != EOF && byte != '\n') {
        if (line->length == line->room && !grow(line))
            return -1;
        line->bytes[line->length++] = (uint8_t)byte;
    }
    if (byte == EOF && ferror(stdin))
        return -1;
    return byte == '\n' || line->length > 0;
}

static uint8_t folded(uint8_t byte)
{
    return byte >= 'A' && byte <= 'Z' ? (uint8_t)(byte + ('a' - 'A')) : byte;
}

static bool is_name(const uint8_t *bytes, size_t length, const char *name)
{
    if (length != strlen(name))
        return false;
    for (size_t i = 0; i < length; i++)
        if (folded(bytes[i]) != folded((uint8_t)name[i]))
            return false;
    return true;
}

/* The row that judges the item of that name; 0 for none. */
static uint64_t row_of(const uint8_t *name, size_t length)
{
    for (size_t i = 0; i < sizeof judged / sizeof judged[0]; i++)
        if (is_name(name, length, judged[i].name))
            return judged[i].row;
    return 0;
}

/* The grade of an accepted line's value by its item's row. */
static wall_graded grade_line(const text *line)
{
    size_t name_end = 0;
    while (line->bytes[name_end] != ' ')
        name_end++;
    size_t start = name_end;
    while (line->bytes[start] == ' ')
        start++;
    return wall_grade(row_of(line->bytes, name_end), line->bytes + start, line->length - start);
}

static void answer_line(const text *line)
{
    unsigned answer = wall_classify(line->bytes, line->length);
    printf("%u", answer);
    if (answer == ACCEPTED) {
        wall_graded graded = grade_line(line);
        if (graded.answer == ACCEPTED)
            printf(" %u", (unsigned)graded.level);
    }
    putchar('\n');
}

static void answer_value(uint64_t row, const text *value)
{
    wall_graded graded = wall_grade(row, value->bytes, value->length);
    printf("%u %u\n", (unsigned)graded.answer, (unsigned)graded.level);
}

/* Answers every input line; as typed lines if row is NULL, else as values for that row. */
static int answer_all(const uint64_t *row)
{
    text line = {NULL, 0, 0};
    int more = grow(&line) ? 1 : -1;
    while (more > 0 && !ferror(stdout) && (more = read_line(&line)) > 0) {
        if (row == NULL)
            answer_line(&line);
        else
            answer_value(*row, &line);
    }
    int status = more < 0 ? fail("standard input") : EXIT_SUCCESS;
    free(line.bytes);
    if (status == EXIT_SUCCESS && (fflush(stdout) != 0 || ferror(stdout)))
        status = fail("standard output");
    return status;
}

static int wrong_argument(int place, const char *argument, const char *why)
{
    fprintf(stderr, "wall_screen: argument %d '%s': %s\n", place, argument, why);
    return EXIT_USAGE;
}

/* Digits only, up to 2^64-1. */
static bool read_row(const char *argument, uint64_t *row)
{
    *row = 0;
    if (*argument == '\0')
        return false;
    for (; *argument != '\0'; argument++) {
        if (*argument < '0' || *argument > '9')
            return false;
        uint64_t digit = (uint64_t)(*argument - '0');
        if (*row > (UINT64_MAX - digit) / 10)
            return false;
        *row = 10 * *row + digit;
    }
    return true;
}

static int with_row(int count, char **arguments)
{
    uint64_t row;
    if (count < 3) {
        fputs("wall_screen: argument 2 missing: --row needs a row number\n", stderr);
        return EXIT_USAGE;
    }
    if (!read_row(arguments[2], &row))
        return wrong_argument(2, arguments[2], "not a row number (0 to 18446744073709551615)");
    if (count > 3)
        return wrong_argument(3, arguments[3], "nothing may follow");
    return answer_all(&row);
}

static int help(int count, char **arguments)
{
    if (count > 2)
        return wrong_argument(2, arguments[2], "nothing may follow");
    if (fputs(usage, stdout) == EOF || fflush(stdout) != 0)
        return fail("standard output");
    return EXIT_SUCCESS;
}

int main(int count, char **arguments)
{
    if (count < 2)
        return answer_all(NULL);
    if (strcmp(arguments[1], "--row") == 0)
        return with_row(count, arguments);
    if (strcmp(arguments[1], "--help") == 0)
        return help(count, arguments);
    return wrong_argument(1, arguments[1], "unknown option");
}
