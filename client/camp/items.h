/*
 * The filled items of a sheet, with their names, which are those of the file that the desk writes.
 */
#ifndef CAMP_ITEMS_H
#define CAMP_ITEMS_H

#include <stdbool.h>
#include <stdio.h>

#include "session.h"

/* A filled item: who typed it, its name and its value as typed. */
typedef struct {
    uint64_t sheet;
    uint64_t item;
    desk_told told;
    const uint8_t *name;
    size_t name_length;
    const uint8_t *value;
    size_t value_length;
} filled_item;

/* What is done with an item; `with` is what each_item was given. */
typedef void item_taker(const filled_item *item, void *with);

/* Hands on each filled item of a sheet in order. */
void each_item(const own_desk *desk, uint64_t sheet, item_taker *take, void *with);

/* Hands on the item of a sheet's last entry, if there is one. */
void last_item(const own_desk *desk, uint64_t sheet, item_taker *take, void *with);

/* In place of the number of an item: all, and none. */
enum { ALL_ITEMS = 0, NO_ITEM = DESK_ITEMS + 1 };

/* The item of a number in digits or of a name; NO_ITEM where it is neither. */
uint64_t item_of(const char *word);

/* 'sheet 0, item 4 NAME: bench 0, entry 3, typed 2 times: VALUE', one line. */
void show_item(FILE *to, const filled_item *item);

/* 'sheet 0, entry 3, bench 0: NAME VALUE', one line. */
void show_entry(FILE *to, const filled_item *item);

/* The same as an object of JSON. */
void json_item(const filled_item *item);

#endif
