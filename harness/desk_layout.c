/* Holds the constants of include/desk.h against what the functions do: which lengths are a desk, where
 * each key, item and number stands, the longest log. Prints what is wrong; exit 1 then. */
#include "desk.h"

#include <stdio.h>
#include <string.h>

enum { LONGEST = DESK_TEXTS + 1, MOST = DESK_NUMBERS + 1, NAME_MOST = 32 };
/* The desk of the build whose lines had 80 bytes and whose items had three numbers, and of those with one sheet of ten items, two of ten and two of
 * eighteen. */
enum { OLD_LINE = 80, OLD_ITEMS = 10, OLD_TEXTS = (DESK_BENCHES + OLD_ITEMS) * OLD_LINE, OLD_ITEM_NUMBERS = 3 };
enum { ONE_TEXTS = (DESK_BENCHES + OLD_ITEMS) * DESK_LINE, ONE_NUMBERS = DESK_ITEMS_AT + OLD_ITEMS * DESK_ITEM_NUMBERS + 2 };
enum { TEN_TEXTS = 4800, TEN_NUMBERS = 87, EIGHTEEN_TEXTS = 8000, EIGHTEEN_NUMBERS = 151 };
/* A sheet's benches. */
enum { OF_SHEET = DESK_BENCHES / DESK_SHEETS };
enum { OLD_COUNT_AT = DESK_ITEMS_AT + OLD_ITEMS * OLD_ITEM_NUMBERS, OLD_USED_AT, OLD_NUMBERS };

static uint8_t texts[LONGEST], log_bytes[DESK_LOG + 1], out[DESK_FILE];
static size_t numbers[MOST];
static int wrong;

static const char *const lines[DESK_ITEMS] = {
    "_chemical_formula_sum 'C4 H10'",
    "_chemical_formula_weight 58.12",
    "_publ_requested_category FO",
    "_refine_ls_R_factor_gt 0.0412",
    "_refine_ls_R_factor_obs 0.051",
    "_refine_ls_wR_factor_ref 0.12",
    "_refine_ls_wR_factor_obs 0.1",
    "_refine_ls_shift/su_max 0.001",
    "_refine_ls_shift/esd_max 0",
    "_reflns_threshold_expression 'I > 2\\s(I)'",
    "_diffrn_reflns_number 8235",
    "_reflns_number_total 2105",
    "_reflns_number_gt 1892",
    "_diffrn_reflns_av_R_equivalents 0.031",
    "_exptl_crystal_size_max 0.32",
    "_exptl_crystal_size_mid 0.2",
    "_exptl_crystal_size_min 0.11",
    "_diffrn_radiation_wavelength 0.71073",
    "_chemical_formula_moiety 'C4 H8, H2'",
};

static void expect(int holds, const char *what, size_t of)
{
    if (!holds) {
        printf("desk_layout: %s (%zu)\n", what, of);
        wrong = 1;
    }
}

static uint8_t key(uint64_t bench, uint8_t byte)
{
    return desk_key(texts, DESK_TEXTS, numbers, DESK_NUMBERS, log_bytes, DESK_LOG, bench, byte);
}

static void fresh(void)
{
    expect(desk_fresh(texts, DESK_TEXTS, numbers, DESK_NUMBERS) == 0, "a desk's lengths are refused", 0);
}

/* How many elements of the memory are not zero. */
static size_t set(void)
{
    size_t n = 0, i;
    for (i = 0; i < DESK_TEXTS; i++) n += texts[i] != 0;
    for (i = 0; i < DESK_NUMBERS; i++) n += numbers[i] != 0;
    return n;
}

static void lengths(void)
{
    size_t t, n;
    for (t = DESK_TEXTS - 1; t <= LONGEST; t++)
        for (n = DESK_NUMBERS - 1; n <= MOST; n++)
            expect(desk_fresh(texts, t, numbers, n) == (t == DESK_TEXTS && n == DESK_NUMBERS ? 0 : 2), "desk_fresh by lengths", t * 100 + n);
    fresh();
    expect(desk_key(texts, DESK_TEXTS, numbers, DESK_NUMBERS, log_bytes, DESK_LOG, 0, 24) == 0, "the longest log is refused", DESK_LOG);
    expect(desk_key(texts, DESK_TEXTS, numbers, DESK_NUMBERS, log_bytes, DESK_LOG + 1, 0, 24) == 2, "a longer log is taken", DESK_LOG + 1);
}

/* Every call refuses such a desk with 2, or where a sheet is asked for that is not there with 12, and writes nothing but to its memory and log. */
static void refused(uint8_t *old, size_t old_texts, size_t *of, size_t old_numbers, uint8_t *old_log, size_t log_length)
{
    static const uint8_t record[] = {10, 0, 1, 0, 0, 4, '0', '.', '1', '6'}, keys[] = {8, 10, 24, 'a', 0};
    static uint8_t paper[DESK_FILE], kept[DESK_KEPT];
    static size_t state[DESK_STATE];
    size_t i, s;
    expect(desk_fresh(old, old_texts, of, old_numbers) == 2, "desk_fresh takes a desk of an old build", old_texts);
    for (i = 0; i < DESK_BENCHES * sizeof keys; i++)
        expect(desk_key(old, old_texts, of, old_numbers, old_log, log_length, i % DESK_BENCHES, keys[i / DESK_BENCHES]) == 2, "desk_key takes a desk of an old build", i);
    for (s = 0; s <= DESK_SHEETS; s++) {
        uint8_t refusal = s < DESK_SHEETS ? 2 : 12;
        expect(desk_report(old, old_texts, of, old_numbers, s, 0).answer == refusal, "desk_report takes a desk of an old build", s);
        for (i = 0; i <= DESK_ITEMS + 1; i++) expect(desk_who(old, old_texts, of, old_numbers, s, i).answer == refusal, "desk_who takes a desk of an old build", i);
        expect(desk_file(old, old_texts, of, old_numbers, s, (const uint8_t *)"camp", 4, paper, DESK_FILE).answer == refusal, "desk_file takes a desk of an old build", s);
        expect(desk_hydrogens(old, old_texts, of, old_numbers, s).answer == refusal, "desk_hydrogens takes a desk of an old build", s);
        expect(desk_hydrogens_right(old, old_texts, of, old_numbers, s, 0).answer == refusal, "desk_hydrogens_right takes a desk of an old build", s);
    }
    for (i = 0; i <= sizeof record; i++)
        expect(desk_feed(old, old_texts, of, old_numbers, kept, DESK_KEPT, state, DESK_STATE, record, i, i % 2 == 0).answer == 2, "desk_feed takes a desk of an old build", i);
    for (i = 0; i < DESK_FILE; i++) expect(paper[i] == 0, "a file of a desk of an old build", i);
    for (i = 0; i < DESK_KEPT; i++) expect(kept[i] == 0, "a reader keeps a byte on a desk of an old build", i);
    for (i = 0; i < DESK_STATE; i++) expect(state[i] == 0, "a reader stands on a desk of an old build", i);
}

/* A desk that the old build saved, with an entry and an unfinished line, is refused and not changed. */
static void old_build(void)
{
    static uint8_t old[OLD_TEXTS], old_log[64], was[OLD_TEXTS], log_was[sizeof old_log];
    static size_t of[OLD_NUMBERS], of_was[OLD_NUMBERS];
    static const uint8_t record[] = {10, 0, 1, 0, 0, 4, '0', '.', '1', '6'};
    memcpy(old + OLD_LINE, "_refine", 7);
    of[1] = 7;
    memcpy(old + (DESK_ITEMS_SLOT + 3) * OLD_LINE, "0.16", 4);
    of[DESK_ITEMS_AT + 3 * OLD_ITEM_NUMBERS] = 4;
    of[DESK_ITEMS_AT + 3 * OLD_ITEM_NUMBERS + 1] = of[OLD_COUNT_AT] = 1;
    of[OLD_USED_AT] = sizeof record;
    memcpy(old_log, record, sizeof record);
    memcpy(was, old, sizeof old);
    memcpy(of_was, of, sizeof of);
    memcpy(log_was, old_log, sizeof old_log);
    refused(old, OLD_TEXTS, of, OLD_NUMBERS, old_log, sizeof old_log);
    expect(memcmp(was, old, sizeof old) == 0 && memcmp(of_was, of, sizeof of) == 0 && memcmp(log_was, old_log, sizeof old_log) == 0, "a desk of the old build is changed", 0);
}

/* Fresh desks that were saved with one sheet, with ten items and with eighteen are no desks. */
static void earlier_sheets(void)
{
    memset(texts, 0, sizeof texts);
    memset(numbers, 0, sizeof numbers);
    refused(texts, ONE_TEXTS, numbers, ONE_NUMBERS, log_bytes, DESK_LOG);
    refused(texts, TEN_TEXTS, numbers, TEN_NUMBERS, log_bytes, DESK_LOG);
    refused(texts, EIGHTEEN_TEXTS, numbers, EIGHTEEN_NUMBERS, log_bytes, DESK_LOG);
    expect(set() == 0, "a desk of earlier sheets is changed", 0);
}

static void benches(void)
{
    size_t bench, i;
    for (bench = 0; bench < DESK_BENCHES; bench++) {
        fresh();
        for (i = 0; i < DESK_LINE; i++) expect(key(bench, 'x') == 0, "a key is refused", bench);
        expect(key(bench, 'x') == 4, "a line is longer", bench);
        for (i = 0; i < DESK_LINE; i++) expect(texts[bench * DESK_LINE + i] == 'x', "a line stands elsewhere", bench);
        expect(numbers[bench] == DESK_LINE && set() == DESK_LINE + 1, "a line's length stands elsewhere", bench);
    }
    expect(key(DESK_BENCHES, 'x') == 1, "there is a further bench", DESK_BENCHES);
}

/* Types the line of item k + 1; its value, which then stands on the bench's sheet. */
static const char *type(size_t k, uint64_t bench)
{
    const char *value = strchr(lines[k], ' ') + 1, *p;
    for (p = lines[k]; *p; p++) expect(key(bench, (uint8_t)*p) == 0, "a key is refused", k + 1);
    expect(key(bench, 10) == 0, "an entry is refused", k + 1);
    expect(memcmp(texts + (DESK_ITEMS_SLOT + bench / OF_SHEET * DESK_ITEMS + k) * DESK_LINE, value, strlen(value)) == 0, "a value stands elsewhere", k + 1);
    return value;
}

static desk_told who(uint64_t sheet, uint64_t item)
{
    return desk_who(texts, DESK_TEXTS, numbers, DESK_NUMBERS, sheet, item);
}

/* Fills a sheet; before it so many bytes of the log are used. */
static void sheet(size_t at, size_t used)
{
    static const uint8_t name[] = "camp";
    size_t *of = numbers + DESK_ITEMS_AT + at * DESK_SHEET_NUMBERS, *count = numbers + DESK_COUNT_AT + at * DESK_SHEET_NUMBERS, k;
    desk_reported rows;
    desk_filed filed;
    for (k = 0; k < DESK_ITEMS; k++, of += DESK_ITEM_NUMBERS) {
        size_t bench = at * OF_SHEET + (k + 1) % OF_SHEET, n;
        desk_told told = who(at, k + 1);
        expect(told.answer == 0 && told.bench == DESK_NO_BENCH && told.entry == 0 && told.times == 0, "an empty item has a bench", k + 1);
        n = strlen(type(k, bench));
        used += 6 + n;
        expect(of[0] == n && of[1] == k + 1 && of[2] == bench && of[3] == 1, "an item's numbers stand elsewhere", k + 1);
        expect(*count == k + 1 && numbers[DESK_USED_AT] == used, "the count or the used number stands elsewhere", k + 1);
        told = who(at, k + 1);
        expect(told.answer == 0 && told.bench == bench && told.entry == k + 1 && told.times == 1, "Who tells another entry", k + 1);
    }
    for (k = 0; k < DESK_ITEMS; k++) {
        type(k, at * OF_SHEET + (k + 1) % OF_SHEET);
        expect(numbers[DESK_ITEMS_AT + at * DESK_SHEET_NUMBERS + k * DESK_ITEM_NUMBERS + 3] == 2, "how often an item was typed stands elsewhere", k + 1);
        expect(who(at, k + 1).times == 2, "Who tells another number of entries", k + 1);
    }
    expect(who(at, DESK_ITEMS + 1).answer == 6, "there is a further item", DESK_ITEMS + 1);
    rows = desk_report(texts, DESK_TEXTS, numbers, DESK_NUMBERS, at, 0);
    expect(rows.answer == 0 && sizeof rows == 1 + 2 * DESK_ROWS, "the report", sizeof rows);
    for (k = 0; k < DESK_PROFILES + 2; k++)
        expect(desk_report(texts, DESK_TEXTS, numbers, DESK_NUMBERS, at, k).answer == (k < DESK_PROFILES ? 0 : 21), "the profiles", k);
    for (k = 0; k < DESK_ROWS; k++) expect(rows.rows[k].level <= 4 && rows.rows[k].reason <= 2, "a row", k + 1);
    expect(desk_hydrogens(texts, DESK_TEXTS, numbers, DESK_NUMBERS, at).count == 10 && desk_hydrogens_right(texts, DESK_TEXTS, numbers, DESK_NUMBERS, at, 10).count == 10, "the hydrogens", at);
    filed = desk_file(texts, DESK_TEXTS, numbers, DESK_NUMBERS, at, name, 4, out, DESK_FILE);
    expect(filed.answer == 0 && memcmp(out, "data_camp\n_chemical", 19) == 0, "the file", filed.count);
}

/* Reads the log that filled both sheets into a fresh desk, a byte at a time: the same sheets. */
static void read_back(void)
{
    static uint8_t read[DESK_TEXTS], kept[DESK_KEPT + 1];
    static size_t of[DESK_NUMBERS], state[DESK_STATE + 1];
    size_t i, k, s;
    for (k = DESK_KEPT - 1; k <= DESK_KEPT + 1; k++)
        for (s = DESK_STATE - 1; s <= DESK_STATE + 1; s++)
            expect(desk_feed(read, DESK_TEXTS, of, DESK_NUMBERS, kept, k, state, s, log_bytes, 0, 0).answer == (k == DESK_KEPT && s == DESK_STATE ? 0 : 2), "desk_feed by lengths", k * 10 + s);
    for (i = 0; i < numbers[DESK_USED_AT]; i++) {
        desk_fed fed = desk_feed(read, DESK_TEXTS, of, DESK_NUMBERS, kept, DESK_KEPT, state, DESK_STATE, log_bytes + i, 1, 0);
        expect(fed.answer == 0 && fed.place == 0, "a byte of a log is refused", i);
    }
    expect(desk_feed(read, DESK_TEXTS, of, DESK_NUMBERS, kept, DESK_KEPT, state, DESK_STATE, log_bytes, 0, 1).answer == 0, "a log's end is refused", i);
    expect(memcmp(read, texts, DESK_TEXTS) == 0 && memcmp(of, numbers, sizeof of) == 0, "a log gives other sheets", 0);
    expect(state[0] == 0 && state[1] == 1, "a reader's numbers stand elsewhere", state[1]);
    expect(desk_feed(read, DESK_TEXTS, of, DESK_NUMBERS, kept, DESK_KEPT, state, DESK_STATE, log_bytes, 9, 0).answer == 0, "a part after the end is refused", 0);
    memset(read, 0, sizeof read);
    memset(of, 0, sizeof of);
    memset(state, 0, sizeof state);
    expect(desk_feed(read, DESK_TEXTS, of, DESK_NUMBERS, kept, DESK_KEPT, state, DESK_STATE, log_bytes, 9, 0).answer == 0 && state[0] == 9 && memcmp(kept, log_bytes, 9) == 0, "the kept bytes stand elsewhere", state[0]);
    expect(DESK_KEPT == 206, "a number that the comments of desk.h tell", DESK_KEPT);
}

/* Each sheet alone, and one after the other; there is no further one. */
static void sheets(void)
{
    size_t at;
    for (at = 0; at < DESK_SHEETS; at++) {
        fresh();
        sheet(at, 0);
    }
    for (at = 0; at < DESK_SHEETS; at++)
        if (numbers[DESK_COUNT_AT + at * DESK_SHEET_NUMBERS] == 0) sheet(at, numbers[DESK_USED_AT]);
    expect(desk_report(texts, DESK_TEXTS, numbers, DESK_NUMBERS, DESK_SHEETS, DESK_PROFILES).answer == 12 && who(DESK_SHEETS, 1).answer == 12, "there is a further sheet", DESK_SHEETS);
    expect(DESK_FILE == 6 + NAME_MOST + DESK_ITEMS * (DESK_LINE + 1), "the room for a file", DESK_FILE);
    expect(DESK_LINE == 200 && DESK_TEXTS == 8400 && DESK_NUMBERS == 159 && DESK_FILE == 3857, "a number that the comments of desk.h tell", 0);
    expect((DESK_BENCHES + DESK_SHEETS * 18) * DESK_LINE == EIGHTEEN_TEXTS && (DESK_BENCHES + DESK_SHEETS * OLD_ITEMS) * DESK_LINE == TEN_TEXTS && ONE_TEXTS == 2800 && OLD_TEXTS == 1120, "the texts of an earlier desk that the comments of desk.h tell", 0);
}

int main(void)
{
    lengths();
    old_build();
    earlier_sheets();
    benches();
    sheets();
    read_back();
    return wrong;
}
