/* camp symmetry: whether operators, one a line, are a group. */
#include "symmetry.h"

#include <stdbool.h>
#include <stdlib.h>
#include <string.h>

#include "commands.h"
#include "files.h"
#include "messages.h"
#include "product.h"

enum {
    TAKEN = 0,
    NO_OPERATOR = 13,
    BAD_DETERMINANT = 14,
    NO_IDENTITY = 15,
    EQUAL_ROWS = 16,
    NO_PRODUCT = 17,
};

const char symmetry_usage[] =
    "usage: camp symmetry [FILE]\n"
    "\n"
    "Reads symmetry operators such as -y,x-y,z+1/3, one a line, and tells whether they are a group: the\n"
    "identity is there, none stands twice, and each two of them, one applied after the other, make one\n"
    "of the list. If not, it tells the lines at fault, and which operator is missing.\n"
    "\n"
    "  FILE      at most 192 operators as _symmetry_equiv_pos_as_xyz has them, without quotes and\n"
    "            spaces. Lines end with LF or CRLF; empty lines, and those that begin with #, are\n"
    "            passed over. Without FILE, and with -, standard input is read.\n"
    "\n"
    "A part of an operator is one or more of x, y and z, each at most once, with signs, and first or last\n"
    "a fraction such as 1/2, or none. A column is that of the first byte with which no operator goes on.\n"
    "\n"
    "Exit status: 0 a group; 1 it is none, or FILE cannot be read; 2 wrong use.\n"
    "\n"
    "Example:\n"
    "\n"
    "  $ camp symmetry operators\n"
    "  camp: operators: lines 2 and 3: 17, a product is missing: that of `-x,y+1/2,-z` applied after `-x,-y,-z`, which is `x,-y+1/2,z`\n";

/* A line of the file, counted from 1, without its end. */
typedef struct {
    const uint8_t *text;
    size_t length;
    size_t number;
} line;

/* The operators of a file, as many as a list may have; `count` goes on beyond them. */
typedef struct {
    int8_t rows[SYMMETRY_MOST * SYMMETRY_ROW];
    line lines[SYMMETRY_MOST];
    line first_beyond;
    size_t count;
} operators;

/* Takes the next line off the file's bytes; false where there is none. */
static bool next_line(content *rest, line *next)
{
    if (rest->length == 0)
        return false;
    const uint8_t *end = memchr(rest->bytes, '\n', rest->length);
    size_t taken = end != NULL ? (size_t)(end - rest->bytes) : rest->length;
    *next = (line){rest->bytes, taken, next->number + 1};
    if (next->length > 0 && next->text[next->length - 1] == '\r')
        next->length--;
    taken += end != NULL;
    rest->bytes += taken;
    rest->length -= taken;
    return true;
}

static bool is_passed_over(const line *read)
{
    return read->length == 0 || read->text[0] == '#';
}

/* 'camp: FILE: line 7'. */
static void about_line(const char *file, const line *read)
{
    about(stdout, file);
    printf("line %zu", read->number);
}

/* The text between marks. */
static void show_line(const line *read)
{
    putchar('`');
    show(stdout, read->text, read->length);
    putchar('`');
}

/*
 * Whether some operator begins with the text. Tried are the ends below, which complete every such
 * beginning: the rest of a part, then the parts that may follow.
 */
static bool begins_operator(const uint8_t *text, size_t length)
{
    static const char *const ends_of_part[] = {
        "", "x", "y", "z", "+x", "1/2", "/8", "8", "/8+x", "8+x",
    };
    static const char *const parts[] = {"", ",x", ",x,x"};
    enum { LONGEST = 64, LONGEST_END = 8 };
    char tried[LONGEST + LONGEST_END + 1];
    if (length > LONGEST)
        return false;
    memcpy(tried, text, length);
    for (size_t end = 0; end < sizeof ends_of_part / sizeof *ends_of_part; end++) {
        for (size_t more = 0; more < sizeof parts / sizeof *parts; more++) {
            strcat(strcpy(tried + length, ends_of_part[end]), parts[more]);
            size_t whole = length + strlen(tried + length);
            if (symmetry_read((const uint8_t *)tried, whole).answer == TAKEN)
                return true;
        }
    }
    return false;
}

/* Tells a line that is no operator, and where: no operator goes on with that byte. */
static void tell_text(const char *file, const line *read)
{
    size_t taken = 0;
    while (taken < read->length && begins_operator(read->text, taken + 1))
        taken++;
    about_line(file, read);
    printf(", column %zu: ", taken + 1);
    show_refusal(stdout, NO_OPERATOR);
    if (taken == read->length) {
        fputs(": ", stdout);
        show_line(read);
        puts(" ends too early");
        return;
    }
    fputs(": `", stdout);
    show(stdout, read->text + taken, 1);
    fputs(taken > 0 ? "` cannot stand after `" : "` cannot begin one", stdout);
    show(stdout, read->text, taken);
    puts(taken > 0 ? "`" : "");
}

/* Reads the lines, and tells each that is no operator; false where there was one. */
static bool read_operators(const char *file, content rest, operators *list)
{
    bool all = true;
    list->count = 0;
    for (line read = {NULL, 0, 0}; next_line(&rest, &read);) {
        if (is_passed_over(&read))
            continue;
        symmetry_operator operator = symmetry_read(read.text, read.length);
        if (operator.answer != TAKEN) {
            tell_text(file, &read);
            all = false;
        } else if (list->count < SYMMETRY_MOST) {
            memcpy(list->rows + list->count * SYMMETRY_ROW, operator.row, SYMMETRY_ROW);
            list->lines[list->count] = read;
        } else if (list->count == SYMMETRY_MOST) {
            list->first_beyond = read;
        }
        list->count += operator.answer == TAKEN;
    }
    return all;
}

static const int8_t *row_of(const operators *list, size_t at)
{
    return list->rows + at * SYMMETRY_ROW;
}

static bool are_equal(const operators *list, size_t a, size_t b)
{
    return memcmp(row_of(list, a), row_of(list, b), SYMMETRY_ROW) == 0;
}

static void tell_too_many(const char *file, const operators *list)
{
    about_line(file, &list->first_beyond);
    printf(": %d, a list has at most %d operators, and this one has %zu\n", NO_OPERATOR,
           SYMMETRY_MOST, list->count);
}

/* Tells each operator of a bad determinant: a list of it alone is refused for that. */
static void tell_determinants(const char *file, const operators *list)
{
    for (size_t at = 0; at < list->count; at++) {
        if (symmetry_check(row_of(list, at), SYMMETRY_ROW).answer != BAD_DETERMINANT)
            continue;
        about_line(file, &list->lines[at]);
        fputs(": ", stdout);
        show_refusal(stdout, BAD_DETERMINANT);
        fputs(": ", stdout);
        show_line(&list->lines[at]);
        putchar('\n');
    }
}

static void tell_no_identity(const char *file, const operators *list)
{
    about(stdout, file);
    show_refusal(stdout, NO_IDENTITY);
    puts(list->count == 0 ? ": there is no operator" : "");
}

/* 'camp: FILE: lines 3 and 7: NUMBER, MEANING: ', of two operators, or of one with itself. */
static void about_two(const char *file, const operators *list, size_t a, size_t b, unsigned answer)
{
    if (a == b) {
        about_line(file, &list->lines[a]);
    } else {
        about(stdout, file);
        printf("lines %zu and %zu", list->lines[a].number, list->lines[b].number);
    }
    fputs(": ", stdout);
    show_refusal(stdout, answer);
    fputs(": ", stdout);
}

/* Tells each operator that stood before, with its first place. */
static void tell_equal(const char *file, const operators *list)
{
    for (size_t b = 1; b < list->count; b++) {
        size_t a = 0;
        while (!are_equal(list, a, b))
            a++;
        if (a == b)
            continue;
        about_two(file, list, a, b, EQUAL_ROWS);
        show_line(&list->lines[a]);
        fputs(" and ", stdout);
        show_line(&list->lines[b]);
        putchar('\n');
    }
}

/* Tells the pair of this number, counted from 1, and what it makes. */
static void tell_product(const char *file, const operators *list, uint64_t pair)
{
    char product[OPERATOR_TEXT];
    size_t first = (size_t)((pair - 1) / list->count);
    size_t second = (size_t)((pair - 1) % list->count);
    about_two(file, list, first, second, NO_PRODUCT);
    fputs("that of ", stdout);
    show_line(&list->lines[first]);
    fputs(" applied after ", stdout);
    if (first == second)
        fputs("itself", stdout);
    else
        show_line(&list->lines[second]);
    if (product_text(row_of(list, first), row_of(list, second), product))
        printf(", which is `%s`", product);
    putchar('\n');
}

/* Tells what is found of operators that were all read. */
static int tell_list(const char *file, const operators *list)
{
    if (list->count > SYMMETRY_MOST) {
        tell_too_many(file, list);
        return STATUS_FOUND;
    }
    symmetry_checked checked = symmetry_check(list->rows, list->count * SYMMETRY_ROW);
    switch (checked.answer) {
    case TAKEN:
        about(stdout, file);
        printf("a group of %zu operator%s\n", list->count, list->count == 1 ? "" : "s");
        return STATUS_DONE;
    case BAD_DETERMINANT:
        tell_determinants(file, list);
        break;
    case NO_IDENTITY:
        tell_no_identity(file, list);
        break;
    case EQUAL_ROWS:
        tell_equal(file, list);
        break;
    default:
        tell_product(file, list, checked.pairs);
    }
    return STATUS_FOUND;
}

int symmetry_run(int count, char **arguments)
{
    static operators list;
    content read;
    if (count > 1)
        return misused("symmetry", arguments[1], "is one argument too many");
    const char *path = count == 1 ? arguments[0] : "-";
    if (no_file(path) != NULL)
        return misused("symmetry", path, no_file(path));
    if (!read_whole(path, &read))
        return STATUS_FOUND;
    const char *file = input_name(path);
    int status = read_operators(file, read, &list) ? tell_list(file, &list) : STATUS_FOUND;
    free(read.bytes);
    return status;
}
