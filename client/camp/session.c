/* A session, and the desk that plays it. */
#include "session.h"

#include <stdlib.h>
#include <string.h>

enum { NO_SUCH_SHEET = 12 };

size_t key_count(const content *session)
{
    return session->length / 2;
}

key key_of(uint8_t first, uint8_t byte)
{
    bool is_bench = first >= '0' && first < '0' + DESK_BENCHES;
    return (key){is_bench ? (uint64_t)(first - '0') : DESK_NO_BENCH, byte};
}

key key_at(const content *session, size_t at)
{
    return key_of(session->bytes[2 * at], session->bytes[2 * at + 1]);
}

void start(own_desk *desk)
{
    desk_fresh(desk->texts, DESK_TEXTS, desk->numbers, DESK_NUMBERS);
    memset(desk->log, 0, LOG_LENGTH);
}

uint8_t press(own_desk *desk, key pressed)
{
    return desk_key(desk->texts, DESK_TEXTS, desk->numbers, DESK_NUMBERS, desk->log, LOG_LENGTH,
                    pressed.bench, pressed.byte);
}

void play(own_desk *desk, const content *session)
{
    start(desk);
    for (size_t at = 0; at < key_count(session); at++)
        press(desk, key_at(session, at));
}

bool play_session(const char *path, own_desk *desk)
{
    content session;
    if (!read_whole(path, &session))
        return false;
    play(desk, &session);
    free(session.bytes);
    return true;
}

desk_reported report_of(const own_desk *desk, uint64_t sheet, uint64_t profile)
{
    return desk_report(desk->texts, DESK_TEXTS, desk->numbers, DESK_NUMBERS, sheet, profile);
}

size_t count_of(const own_desk *desk, uint64_t sheet)
{
    return desk->numbers[DESK_COUNT_AT + DESK_SHEET_NUMBERS * sheet];
}

bool no_such_sheet(const own_desk *desk, uint64_t sheet)
{
    return who_typed(desk, sheet, 1).answer == NO_SUCH_SHEET;
}

desk_told who_typed(const own_desk *desk, uint64_t sheet, uint64_t item)
{
    return desk_who(desk->texts, DESK_TEXTS, desk->numbers, DESK_NUMBERS, sheet, item);
}

desk_filed write_file(const own_desk *desk, uint64_t sheet, const char *block, uint8_t out[DESK_FILE])
{
    return desk_file(desk->texts, DESK_TEXTS, desk->numbers, DESK_NUMBERS, sheet,
                     (const uint8_t *)block, strlen(block), out, DESK_FILE);
}
