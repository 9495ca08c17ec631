/* The desk at work. */
#include "live.h"

#include <string.h>

enum { ACCEPTED = 0 };

uint64_t sheet_of(uint64_t bench)
{
    return bench / (DESK_BENCHES / DESK_SHEETS);
}

size_t used_of(const live_desk *live)
{
    return live->desk.numbers[DESK_USED_AT];
}

size_t entries_of(const live_desk *live, uint64_t sheet)
{
    return count_of(&live->desk, sheet);
}

const uint8_t *line_of(const live_desk *live, uint64_t bench, size_t *length)
{
    *length = live->desk.numbers[bench];
    return live->desk.texts + DESK_LINE * bench;
}

bool start_live(live_desk *live, const char *log)
{
    static log_reader reader;
    memset(live, 0, sizeof *live);
    if (!open_log(&live->file, log))
        return false;
    if (!load_log(&live->file, &reader, live->log)) {
        close_log(&live->file);
        return false;
    }
    live->desk = reader.desk;
    if (start_writer(&live->writer, &live->file))
        return true;
    close_log(&live->file);
    return false;
}

void end_live(live_desk *live)
{
    end_writer(&live->writer);
    close_log(&live->file);
}

bool may_press(const live_desk *live, key pressed)
{
    if (live->apart)
        return false;
    return !live->saving || (pressed.byte != ENTER && pressed.bench != live->saving_bench);
}

static uint8_t press_desk(live_desk *live, key pressed)
{
    return desk_key(live->desk.texts, DESK_TEXTS, live->desk.numbers, DESK_NUMBERS, live->log, DESK_LOG,
                    pressed.bench, pressed.byte);
}

pressed_key press_live(live_desk *live, key pressed)
{
    static own_desk before;
    before = live->desk;
    size_t used = used_of(live);
    uint8_t answer = press_desk(live, pressed);
    if (answer != ACCEPTED || used_of(live) == used)
        return (pressed_key){.answer = answer};
    give_record(&live->writer, live->log + used, used_of(live) - used);
    live->desk = before;
    live->saving = true;
    live->saving_bench = pressed.bench;
    return (pressed_key){.answer = answer, .saving = true};
}

/* Whether the log has grown from so many bytes by the record that is on the disk, and by nothing else. */
static bool has_grown(const live_desk *live, size_t used)
{
    const log_writer *writer = &live->writer;
    return used_of(live) == used + writer->length &&
           memcmp(live->log + used, writer->record, writer->length) == 0;
}

pressed_key end_saving(live_desk *live)
{
    size_t used = used_of(live);
    const char *why = take_end(&live->writer);
    live->saving = false;
    if (why != NULL)
        return (pressed_key){.answer = ACCEPTED, .not_kept = why};
    uint8_t answer = press_desk(live, (key){live->saving_bench, ENTER});
    live->apart = answer != ACCEPTED || !has_grown(live, used);
    return (pressed_key){.answer = answer, .entered = !live->apart};
}

/* The length of a record, which its first two bytes say, and its bench. */
static size_t record_length(const uint8_t *record)
{
    return record[0] + 256u * record[1];
}

enum { RECORD_BENCH = 4 };

void each_entry(const live_desk *live, item_taker *take, void *with)
{
    static log_reader reader;
    start_reader(&reader);
    for (size_t at = 0; at < used_of(live); at += record_length(live->log + at)) {
        const uint8_t *record = live->log + at;
        if (!feed_log(&reader, record, record_length(record), false))
            return;
        last_item(&reader.desk, sheet_of(record[RECORD_BENCH]), take, with);
    }
}
