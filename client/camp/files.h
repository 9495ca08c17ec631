/*
 * Files by the names that people give; the name - is standard input, or standard output.
 */
#ifndef CAMP_FILES_H
#define CAMP_FILES_H

#include <stdbool.h>
#include <stddef.h>
#include <stdint.h>

/* Why an argument cannot name a file, for the message of wrong use; NULL where it can. */
const char *no_file(const char *argument);

/* A file to read, as messages name it. */
const char *input_name(const char *path);

/* The bytes of a file, never NULL once read; free(bytes) gives them back. */
typedef struct {
    uint8_t *bytes;
    size_t length;
} content;

/* Reads a file to its end. Where that fails it tells so, and there is nothing to give back. */
bool read_whole(const char *path, content *read);

/* What takes a part of a file; false where no further part is wanted. */
typedef bool part_taker(void *to, const uint8_t *part, size_t length);

/* Hands on a file in parts of at most so many bytes. Where it cannot be read it tells so. */
bool read_parts(const char *path, size_t most, part_taker *take, void *to);

/* The same of a file that is open; false with errno. */
bool read_parts_of(int file, size_t most, part_taker *take, void *to);

/* Writes all bytes to a file that is open; false with errno. */
bool write_bytes(int file, const uint8_t *bytes, size_t length);

/*
 * Writes a file whole or not at all: beside its place, and renamed when all of it is on the disk.
 * Where that fails, and where a running desk writes the file, it tells so, and what had the name before
 * stays. What goes to standard output is told by output_ended.
 */
bool write_whole(const char *path, const uint8_t *bytes, size_t length);

/* The same for a path that is not -, told by what it returns: NULL where it is written, or why not. */
const char *try_write(const char *path, const uint8_t *bytes, size_t length);

#endif
