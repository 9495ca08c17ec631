/* A log, read in parts. */
#include "log.h"

#include <string.h>

#include "json.h"
#include "meanings.h"
#include "messages.h"

enum { TAKEN = 0 };

/* What the parts of a file go to. */
typedef struct {
    log_reader *reader;
    byte_taker *each;
    void *with;
} reading;

void start_reader(log_reader *reader)
{
    memset(reader, 0, sizeof *reader);
}

bool feed_log(log_reader *reader, const uint8_t *part, size_t length, bool last)
{
    reader->fed = desk_feed(reader->desk.texts, DESK_TEXTS, reader->desk.numbers, DESK_NUMBERS,
                            reader->kept, DESK_KEPT, reader->state, DESK_STATE, part, length, last);
    return reader->fed.answer == TAKEN;
}

static bool take_part(void *to, const uint8_t *part, size_t length)
{
    reading *read = to;
    if (read->each == NULL)
        return feed_log(read->reader, part, length, false);
    for (; length > 0; part++, length--) {
        if (!feed_log(read->reader, part, 1, false))
            return false;
        read->each(read->reader, read->with);
    }
    return true;
}

bool read_log(const char *path, log_reader *reader, byte_taker *each, void *with)
{
    static const uint8_t nothing[1];
    reading to = {reader, each, with};
    start_reader(reader);
    if (!read_parts(path, PART, take_part, &to))
        return false;
    feed_log(reader, nothing, 0, true);
    return true;
}

bool is_damaged(const char *file, const log_reader *reader, const char *ending)
{
    if (reader->fed.answer == TAKEN)
        return false;
    about(stderr, file);
    fprintf(stderr, "byte %zu: ", reader->fed.place);
    show_refusal(stderr, reader->fed.answer);
    fprintf(stderr, "; %s\n", ending);
    return true;
}

int tell_damage(const char *file, const log_reader *reader)
{
    return is_damaged(file, reader, "what stands before it was read") ? STATUS_FOUND : STATUS_DONE;
}

void json_damage(const log_reader *reader)
{
    const char *meaning = meaning_of(reader->fed.answer);
    fputs("\"damage\":", stdout);
    if (reader->fed.answer == TAKEN) {
        fputs("null", stdout);
        return;
    }
    printf("{\"byte\":%zu,\"number\":%u,\"meaning\":", reader->fed.place, (unsigned)reader->fed.answer);
    json_text(meaning, strlen(meaning));
    putchar('}');
}
