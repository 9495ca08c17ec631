/*
 * What camp says, in one form: 'camp: FILE: PLACE: NUMBER, MEANING'. Findings go to standard output,
 * errors to standard error.
 */
#ifndef CAMP_MESSAGES_H
#define CAMP_MESSAGES_H

#include <stddef.h>
#include <stdint.h>
#include <stdio.h>

/*
 * Exit status: done, and nothing found; something found or refused, or a file that cannot be read or
 * written; wrong use.
 */
enum { STATUS_DONE = 0, STATUS_FOUND = 1, STATUS_MISUSED = 2 };

/* Prints bytes in one line: those outside 32 to 126 as \xNN, two hexadecimal digits. */
void show(FILE *to, const void *bytes, size_t length);

/* The same for a text that ends with NUL. */
void show_text(FILE *to, const char *text);

/* 'camp: FILE: ', the beginning of a message about a file. */
void about(FILE *to, const char *file);

/* 'NUMBER, MEANING' of a refusal. */
void show_refusal(FILE *to, unsigned number);

/* Tells that there is no such sheet, and returns STATUS_FOUND. */
int no_sheet(uint64_t sheet);

/* Tells what errno says of a file, and returns STATUS_FOUND. */
int trouble(const char *file);

/*
 * Tells a wrong use, 'camp: COMMAND: 'ARGUMENT' WHY; see 'camp help COMMAND'', and returns
 * STATUS_MISUSED. Command and argument may be NULL, and are then left out.
 */
int misused(const char *command, const char *argument, const char *why);

/* Ends standard output: the status, or that of trouble where some of the output was not written. */
int output_ended(int status);

#endif
