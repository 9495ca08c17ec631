/* The filled items of a sheet. */
#include "items.h"

#include <inttypes.h>
#include <string.h>

#include "json.h"
#include "messages.h"
#include "options.h"

static bool is_filled(const own_desk *desk, uint64_t sheet, uint64_t item)
{
    return who_typed(desk, sheet, item).bench != DESK_NO_BENCH;
}

void each_item(const own_desk *desk, uint64_t sheet, item_taker *take, void *with)
{
    static uint8_t out[DESK_FILE];
    desk_filed filed = write_file(desk, sheet, "x", out);
    /* After the line of the block, one for each filled item: its name, a space and the value. */
    const uint8_t *end = memchr(out, '\n', filed.count);
    for (uint64_t item = 1; item <= DESK_ITEMS; item++) {
        if (!is_filled(desk, sheet, item))
            continue;
        const uint8_t *line = end + 1;
        end = memchr(line, '\n', (size_t)(out + filed.count - line));
        const uint8_t *space = memchr(line, ' ', (size_t)(end - line));
        filled_item filled = {sheet,     item, who_typed(desk, sheet, item), line, (size_t)(space - line),
                              space + 1, (size_t)(end - space - 1)};
        take(&filled, with);
    }
}

/* The number of an entry, and what its item goes to. */
typedef struct {
    size_t entry;
    item_taker *take;
    void *with;
} last_entry;

static void take_last(const filled_item *item, void *with)
{
    const last_entry *last = with;
    if (item->told.entry == last->entry)
        last->take(item, last->with);
}

void last_item(const own_desk *desk, uint64_t sheet, item_taker *take, void *with)
{
    last_entry last = {count_of(desk, sheet), take, with};
    each_item(desk, sheet, take_last, &last);
}

/* The item of a name, or NO_ITEM: the one that a desk fills which has `NAME ?` typed. */
static uint64_t item_named(const char *name)
{
    static own_desk desk;
    start(&desk);
    for (; *name != '\0'; name++) {
        bool is_name = *name > 32 && *name <= 126;
        if (!is_name || press(&desk, (key){0, (uint8_t)*name}) != 0)
            return NO_ITEM;
    }
    press(&desk, (key){0, ' '});
    press(&desk, (key){0, '?'});
    press(&desk, (key){0, ENTER});
    uint64_t item = 1;
    while (item <= DESK_ITEMS && !is_filled(&desk, 0, item))
        item++;
    return item;
}

uint64_t item_of(const char *word)
{
    uint64_t number;
    if (*word == '_')
        return item_named(word);
    return read_number(word, &number) && number >= 1 && number <= DESK_ITEMS ? number : NO_ITEM;
}

void show_item(FILE *to, const filled_item *item)
{
    fprintf(to, "sheet %" PRIu64 ", item %" PRIu64 " ", item->sheet, item->item);
    show(to, item->name, item->name_length);
    fprintf(to, ": bench %u, entry %zu, typed %zu time%s: ", (unsigned)item->told.bench, item->told.entry,
            item->told.times, item->told.times == 1 ? "" : "s");
    show(to, item->value, item->value_length);
    putc('\n', to);
}

void show_entry(FILE *to, const filled_item *item)
{
    fprintf(to, "sheet %" PRIu64 ", entry %zu, bench %u: ", item->sheet, item->told.entry,
            (unsigned)item->told.bench);
    show(to, item->name, item->name_length);
    putc(' ', to);
    show(to, item->value, item->value_length);
    putc('\n', to);
}

void json_item(const filled_item *item)
{
    printf("{\"sheet\":%" PRIu64 ",\"item\":%" PRIu64 ",\"name\":", item->sheet, item->item);
    json_text(item->name, item->name_length);
    printf(",\"bench\":%u,\"entry\":%zu,\"times\":%zu,\"value\":", (unsigned)item->told.bench,
           item->told.entry, item->told.times);
    json_text(item->value, item->value_length);
    putchar('}');
}
