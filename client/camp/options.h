/*
 * Options, which may stand at any place among the arguments of a command. What follows an argument --
 * is none.
 */
#ifndef CAMP_OPTIONS_H
#define CAMP_OPTIONS_H

#include <stdbool.h>
#include <stdint.h>

/* The arguments of a command that are left; a command takes its options out, and then the -- if any. */
typedef struct {
    const char *command;
    int count;
    char **words;
} arguments_of;

/*
 * Takes out `NAME VALUE`; value stays as it is where there is none. False, and told as wrong use, where
 * the value is missing or the option stands twice.
 */
bool take_value(arguments_of *arguments, const char *name, const char **value);

/*
 * Takes out the first `NAME VALUE` of an option that may stand often; value is NULL where there is none.
 * False, and told as wrong use, where the value is missing.
 */
bool take_next(arguments_of *arguments, const char *name, const char **value);

/* Takes out NAME, and sets the flag where it stood. False, and told as wrong use, where it stands twice. */
bool take_flag(arguments_of *arguments, const char *name, bool *flag);

/* Takes out --, which ends the options. */
void end_options(arguments_of *arguments);

/* A number in digits; one that is beyond all numbers is the largest. False where it is none. */
bool read_number(const char *digits, uint64_t *number);

/* The sheets that are asked for, from the first to the last. */
typedef struct {
    uint64_t first;
    uint64_t last;
} sheets;

/*
 * Takes out --sheet: the one of its number, or none that there is. Without it the sheets stay as they are.
 * False, and told as wrong use, where it is no number.
 */
bool take_sheet(arguments_of *arguments, sheets *asked);

/*
 * The arguments of a command that takes --sheet, --json and one LOG: the status is that of done, or wrong
 * use, which is told.
 */
int log_arguments(const char *command, int count, char **words, sheets *asked, bool *json,
                  const char **log);

#endif
