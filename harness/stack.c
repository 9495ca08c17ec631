/*
 * Measures the stack that one call of the proved library takes: it runs on a thread whose stack was painted before. Link it with -z now, or
 * the loader's search for a function that is called for the first time is measured too.
 */
#define _GNU_SOURCE
#include <pthread.h>
#include <stdio.h>
#include <stdlib.h>
#include <string.h>

#include "desk.h"
#include "probe.h"
#include "symmetry.h"
#include "wall.h"

enum { STACK = 1 << 20, PAINT = 0xA5 };

#define TEN "H H H H H H H H H H "

/* What fills all items of sheet 0 but one. */
static const char *const lines[] = {
    "_chemical_formula_sum 'C18 H19 N7 O8 S'",
    "_chemical_formula_weight 493.5(2)",
    "_publ_requested_category FO",
    "_refine_ls_R_factor_gt 0.16",
    "_refine_ls_R_factor_obs 0.12",
    "_refine_ls_wR_factor_ref 0.3",
    "_refine_ls_wR_factor_obs 0.2",
    "_refine_ls_shift/su_max -0.06",
    "_reflns_threshold_expression 'I > 2\\s(I)'",
    "_diffrn_reflns_number 8235",
    "_reflns_number_total 2105",
    "_reflns_number_gt 1892",
    "_diffrn_reflns_av_R_equivalents 0.0310(12)",
    "_exptl_crystal_size_max 0.32",
    "_exptl_crystal_size_mid 0.20",
    "_exptl_crystal_size_min 0.11",
    "_diffrn_radiation_wavelength 0.71073",
    /* As many parts as a line has room for, in four brackets: the readers call each other for each. */
    "_chemical_formula_moiety '((((" TEN TEN TEN TEN TEN TEN TEN TEN "H H))))'",
};

static uint8_t texts[DESK_TEXTS];
static size_t numbers[DESK_NUMBERS];
static uint8_t log_bytes[4096];
static uint8_t file_bytes[DESK_FILE];
/* A list of 192 operators: shifts, which are all looked at in pairs. */
static int8_t rows[SYMMETRY_MOST * SYMMETRY_ROW];
/* A desk into which a log is read, and its reader. */
static uint8_t read_texts[DESK_TEXTS], kept[DESK_KEPT], record[184];
static size_t read_numbers[DESK_NUMBERS], state[DESK_STATE];
static volatile unsigned sink;

/* One key of a bench. */
static uint8_t key(uint64_t bench, char byte) {
    return desk_key(texts, DESK_TEXTS, numbers, DESK_NUMBERS, log_bytes, sizeof log_bytes, bench, (uint8_t)byte);
}

static void nothing(void) {}

/* The longest way through the lookup, its stack alone: no name. */
static void look_up(void) {
    sink += (unsigned)probe_item((const uint8_t *)"_refine_ls_R_factor_xx", 22);
}

static void classify(void) {
    sink += wall_classify((const uint8_t *)"_refine_ls_R_factor_gt 0.16", 27);
}

static void grade(void) {
    sink += wall_grade(6, (const uint8_t *)"0.16", 4).level;
}

static void fresh(void) {
    sink += desk_fresh(texts, DESK_TEXTS, numbers, DESK_NUMBERS);
}

static void append(void) {
    sink += key(0, 'x');
}

static void erase(void) {
    sink += key(0, 8);
}

static void enter(void) {
    sink += key(1, 10);
}

static void report(void) {
    sink += desk_report(texts, DESK_TEXTS, numbers, DESK_NUMBERS, 0, 0).rows[0].level;
}

static void who(void) {
    sink += desk_who(texts, DESK_TEXTS, numbers, DESK_NUMBERS, 0, 4).bench;
}

static void file(void) {
    sink += desk_file(texts, DESK_TEXTS, numbers, DESK_NUMBERS, 0, (const uint8_t *)"camp-1", 6, file_bytes, sizeof file_bytes).answer;
}

static void propose(void) {
    sink += (unsigned)desk_hydrogens(texts, DESK_TEXTS, numbers, DESK_NUMBERS, 0).count;
}

static void check_count(void) {
    sink += desk_hydrogens_right(texts, DESK_TEXTS, numbers, DESK_NUMBERS, 0, 19).answer;
}

/* A log of one record of the longest line, whose last bytes come as a part. */
static void feed(void) {
    sink += desk_feed(read_texts, DESK_TEXTS, read_numbers, DESK_NUMBERS, kept, DESK_KEPT, state, DESK_STATE, record + 100, sizeof record - 100, 1).answer;
}

static void read_operator(void) {
    sink += symmetry_read((const uint8_t *)"-y+1/2,x-y,5/6-z", 16).answer;
}

static void check_list(void) {
    sink += symmetry_check(rows, sizeof rows).answer;
}

static void *run(void *call) {
    (*(void (**)(void))call)();
    return NULL;
}

/* The bytes of a painted stack that a call changed. */
static size_t touched(void (*call)(void)) {
    unsigned char *stack = aligned_alloc(4096, STACK);
    pthread_attr_t attributes;
    pthread_t thread;
    size_t clean = 0;
    if (!stack) abort();
    memset(stack, PAINT, STACK);
    if (pthread_attr_init(&attributes) || pthread_attr_setstack(&attributes, stack, STACK)) abort();
    if (pthread_create(&thread, &attributes, run, &call) || pthread_join(thread, NULL)) abort();
    while (clean < STACK && stack[clean] == PAINT) clean++;
    free(stack);
    return STACK - clean;
}

/* Fills the list with the shifts by twelfths of x and quarters of y and z; it is a group. */
static void shift(void) {
    for (int at = 0; at < SYMMETRY_MOST; at++) {
        int8_t *row = rows + at * SYMMETRY_ROW;
        row[0] = row[4] = row[8] = 1;
        row[9] = (int8_t)(2 * (at % 12));
        row[10] = (int8_t)(6 * (at / 12 % 4));
        row[11] = (int8_t)(6 * (at / 48));
    }
}

/* Types a line without its Enter, or only the Enter of one; every key is accepted. */
static void type(uint64_t bench, const char *text) {
    for (; *text; text++)
        if (key(bench, *text)) abort();
}

/* Prints what a call takes beyond a thread that does nothing. */
static void print(const char *name, void (*call)(void), size_t base) {
    printf("%s: %zu bytes\n", name, touched(call) - base);
}

int main(void) {
    size_t base = touched(nothing);
    print("probe_item, the lookup of a name", look_up, base);
    print("wall_classify", classify, base);
    print("wall_grade", grade, base);
    print("desk_fresh", fresh, base);
    for (size_t at = 0; at < sizeof lines / sizeof *lines; at++) {
        type(1, lines[at]);
        type(1, "\n");
    }
    type(1, lines[3]);
    print("desk_key, a byte appended", append, base);
    print("desk_key, a byte erased", erase, base);
    print("desk_key, Enter accepted", enter, base);
    if (numbers[0] != 0 || numbers[1] != 0 || numbers[DESK_COUNT_AT] != sizeof lines / sizeof *lines + 1) abort();
    print("desk_report", report, base);
    print("desk_who", who, base);
    print("desk_file", file, base);
    print("desk_hydrogens", propose, base);
    print("desk_hydrogens_right", check_count, base);
    if (desk_hydrogens(texts, DESK_TEXTS, numbers, DESK_NUMBERS, 0).answer != 0) abort();
    memcpy(record, (const uint8_t[]){184, 0, 1, 0, 3, 1}, 6);
    memset(record + 6, 'C', sizeof record - 6);
    if (desk_feed(read_texts, DESK_TEXTS, read_numbers, DESK_NUMBERS, kept, DESK_KEPT, state, DESK_STATE, record, 100, 0).answer) abort();
    print("desk_feed, a record kept in part", feed, base);
    if (read_numbers[DESK_USED_AT] != sizeof record || state[1] != 1) abort();
    print("symmetry_read", read_operator, base);
    shift();
    print("symmetry_check, 192 operators", check_list, base);
    if (symmetry_check(rows, sizeof rows).pairs != SYMMETRY_MOST * SYMMETRY_MOST) abort();
    return 0;
}
