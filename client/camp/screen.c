/*
 * The wall screen. From top to bottom: the log's room; each bench with its line and what was said to it;
 * the sheets side by side with their items and alerts, or the answer to the counsellor; the last notice;
 * the counsellor's line. Bytes outside 32 to 126 are never drawn.
 */
#define _DEFAULT_SOURCE

#include "screen.h"

#include <inttypes.h>
#include <ncurses.h>
#include <string.h>
#include <sys/ioctl.h>
#include <termios.h>
#include <unistd.h>

#include "alerts.h"
#include "console.h"
#include "words.h"

/* The pairs of colours. */
enum { PLAIN, TITLE, BENCH, HAPPY, SORRY, LEVEL_A, LEVEL_B, LEVEL_C, LEVEL_G };
/* A screen with so many rows has an empty one behind each bench. */
enum { ROOMY = 40 };
/* A sheet that is so wide tells of its items in full words. */
enum { WIDE = 72 };
enum { CONTROL_C = 3, ESCAPE = 27, DELETE = 127, ESCAPE_WAIT = 20 };

static SCREEN *terminal;

/* A kind of words: by colours where the terminal has them, otherwise by what every terminal has. */
static attr_t look(int pair)
{
    static const attr_t plain[] = {
        [PLAIN] = A_NORMAL,   [TITLE] = A_REVERSE,   [BENCH] = A_REVERSE | A_BOLD, [HAPPY] = A_BOLD,
        [SORRY] = A_REVERSE,  [LEVEL_A] = A_REVERSE | A_BOLD, [LEVEL_B] = A_REVERSE, [LEVEL_C] = A_BOLD,
        [LEVEL_G] = A_NORMAL,
    };
    static const attr_t with[] = {[BENCH] = A_BOLD, [HAPPY] = A_BOLD, [SORRY] = A_BOLD, [LEVEL_A] = A_BOLD,
                                  [LEVEL_G] = 0};
    if (!has_colors())
        return plain[pair];
    return (attr_t)COLOR_PAIR(pair) | with[pair];
}

static void set_colours(void)
{
    if (!has_colors())
        return;
    start_color();
    use_default_colors();
    init_pair(TITLE, COLOR_WHITE, COLOR_BLUE);
    init_pair(BENCH, COLOR_BLACK, COLOR_CYAN);
    init_pair(HAPPY, COLOR_GREEN, -1);
    init_pair(SORRY, COLOR_RED, -1);
    init_pair(LEVEL_A, COLOR_WHITE, COLOR_RED);
    init_pair(LEVEL_B, COLOR_BLACK, COLOR_YELLOW);
    init_pair(LEVEL_C, COLOR_YELLOW, -1);
    init_pair(LEVEL_G, COLOR_CYAN, -1);
}

/*
 * No key of the terminal may hold the desk: Ctrl-S would stop its output, and the benches with it. Where the
 * keys are not read here, those that send a signal still do.
 */
static void set_keys(bool keys)
{
    struct termios modes;
    if (keys) {
        raw();
        return;
    }
    cbreak();
    if (tcgetattr(STDOUT_FILENO, &modes) == 0) {
        modes.c_iflag &= (tcflag_t)~IXON;
        tcsetattr(STDOUT_FILENO, TCSANOW, &modes);
    }
}

bool start_screen(bool keys)
{
    terminal = newterm(NULL, stdout, stdin);
    if (terminal == NULL) {
        fputs("camp: this terminal cannot be drawn on; see --plain in 'camp help run'\n", stderr);
        return false;
    }
    set_term(terminal);
    noecho();
    nonl();
    set_keys(keys);
    keypad(stdscr, TRUE);
    nodelay(stdscr, TRUE);
    set_escdelay(ESCAPE_WAIT);
    set_colours();
    return true;
}

void end_screen(void)
{
    endwin();
    delscreen(terminal);
}

void resize_screen(void)
{
    struct winsize size;
    if (ioctl(STDOUT_FILENO, TIOCGWINSZ, &size) == 0 && size.ws_row > 0 && size.ws_col > 0)
        resizeterm(size.ws_row, size.ws_col);
    clearok(stdscr, TRUE);
}

/* A place of the screen: columns of one row. */
typedef struct {
    int row;
    int column;
    int width;
} place;

/* Writes bytes, as many as the place has, and fills it; the place that is left is empty. */
static void put(place at, int pair, const void *bytes, size_t length)
{
    const unsigned char *byte = bytes;
    int most = at.width < COLS - at.column ? at.width : COLS - at.column;
    if (at.row < 0 || at.row >= LINES || most <= 0)
        return;
    attrset(look(pair));
    move(at.row, at.column);
    for (int column = 0; column < most; column++) {
        bool is_there = (size_t)column < length;
        addch(!is_there ? ' ' : byte[column] >= 32 && byte[column] <= 126 ? byte[column] : '?');
    }
    attrset(A_NORMAL);
}

static void put_text(place at, int pair, const char *text)
{
    put(at, pair, text, strlen(text));
}

/* What is left of a place behind so many columns. */
static place behind(place at, int columns)
{
    return (place){at.row, at.column + columns, at.width - columns};
}

static place row_of(int row)
{
    return (place){row, 0, COLS};
}

static void draw_title(const view *shown)
{
    char text[WORDS];
    size_t used = used_of(shown->live), entries = 0;
    for (uint64_t sheet = 0; sheet < DESK_SHEETS; sheet++)
        entries += entries_of(shown->live, sheet);
    snprintf(text, sizeof text, " THE DESK   %zu entr%s, room for %zu of %d bytes in %s", entries,
             entries == 1 ? "y" : "ies", DESK_LOG - used, DESK_LOG, shown->live->file.path);
    put_text(row_of(0), TITLE, text);
}

/* The end of a bench's line, and a mark where its beginning does not fit. */
static void draw_line(place at, const uint8_t *line, size_t length)
{
    size_t room = at.width > 2 ? (size_t)at.width - 2 : 0;
    size_t from = length > room ? length - room : 0;
    put_text(at, PLAIN, from > 0 ? "<" : " ");
    at = behind(at, 1);
    put(at, HAPPY, line + from, length - from);
    put_text((place){at.row, at.column + (int)(length - from), 1}, BENCH, " ");
}

/* What is said to a bench: of its keypad where that is not there, otherwise of its last key. */
static void draw_said(place at, const view *shown, uint64_t bench)
{
    char text[WORDS];
    const input *in = input_of(shown, bench);
    const words_shown *words = &shown->benches[bench];
    if (in->state == INPUT_AWAY || in->state == INPUT_REFUSED) {
        snprintf(text, sizeof text, "The keypad is not there%s%s.", in->why != NULL ? ": " : "",
                 in->why != NULL ? in->why : "");
        put_text(at, SORRY, text);
    } else if (shown->live->saving && shown->live->saving_bench == bench) {
        put_text(at, PLAIN, "Saving ..");
    } else if (words->as != QUIET) {
        put_text(at, words->as == GOOD ? HAPPY : SORRY, words->text);
    } else if (in->state == INPUT_OVER) {
        put_text(at, SORRY, "The file of keys is at its end.");
    }
}

/* Two rows for a bench. */
static void draw_bench(const view *shown, uint64_t bench, int row)
{
    char text[WORDS];
    size_t length;
    const uint8_t *line = line_of(shown->live, bench, &length);
    enum { LABEL = 20, INDENT = 3 };
    snprintf(text, sizeof text, " BENCH %" PRIu64 "  %s ", bench, camp_name(sheet_of(bench)));
    put_text((place){row, 0, LABEL}, BENCH, text);
    draw_line(behind(row_of(row), LABEL), line, length);
    draw_said(behind(row_of(row + 1), INDENT), shown, bench);
}

/* The benches that have an input, from this row on; the row behind them. */
static int draw_benches(const view *shown, int row)
{
    for (uint64_t bench = 0; bench < DESK_BENCHES; bench++) {
        if (input_of(shown, bench) == NULL)
            continue;
        draw_bench(shown, bench, row);
        row += LINES >= ROOMY ? 3 : 2;
    }
    return row;
}

/* The next row of a sheet's items. */
typedef struct {
    place at;
    size_t oldest;    /* entries before this one do not fit */
} block;

/* Who typed an item, and how often; its width. */
static int who_text(const filled_item *item, bool in_words, char text[WORDS])
{
    const desk_told *told = &item->told;
    if (in_words)
        return snprintf(text, WORDS, " bench %u, entry %zu, typed %zu time%s", (unsigned)told->bench,
                        told->entry, told->times, told->times == 1 ? "" : "s");
    return snprintf(text, WORDS, " b%u #%zu x%zu", (unsigned)told->bench, told->entry, told->times);
}

static void draw_item(const filled_item *item, void *with)
{
    block *in = with;
    char text[WORDS];
    if (item->told.entry < in->oldest)
        return;
    int width = who_text(item, in->at.width >= WIDE, text);
    place all = in->at;
    if (width > all.width)
        width = all.width;
    place who = behind(all, all.width - width);
    put_text(who, PLAIN, text);
    all.width -= width;
    snprintf(text, sizeof text, "%2" PRIu64 " ", item->item);
    put_text(all, PLAIN, text);
    all = behind(all, 3);
    int name = (int)item->name_length, value = (int)item->value_length;
    int half = all.width / 2;
    if (name + 1 + value > all.width)
        name = all.width - 1 - value > half ? all.width - 1 - value : name < half ? name : half;
    put((place){all.row, all.column, name}, PLAIN, item->name, item->name_length);
    put(behind(all, name + 1), HAPPY, item->value, item->value_length);
    in->at.row++;
}

/* How many items are filled, and their last entries. */
typedef struct {
    size_t count;
    size_t entries[DESK_ITEMS];
} latest;

static void count_item(const filled_item *item, void *with)
{
    latest *found = with;
    size_t at = found->count++;
    for (; at > 0 && found->entries[at - 1] < item->told.entry; at--)
        found->entries[at] = found->entries[at - 1];
    found->entries[at] = item->told.entry;
}

static void put_more(place at, size_t count, const char *what)
{
    char text[WORDS];
    snprintf(text, sizeof text, "   and %zu %s more", count, what);
    put_text(at, PLAIN, text);
}

/* The items in so many rows: all, or those that were typed last. */
static place draw_items(const own_desk *desk, uint64_t sheet, place at, int rows, const latest *found)
{
    block in = {at, 0};
    size_t fits = found->count;
    if (found->count > (size_t)rows) {
        fits = rows > 1 ? (size_t)rows - 1 : 0;
        in.oldest = fits > 0 ? found->entries[fits - 1] : found->entries[0] + 1;
    }
    each_item(desk, sheet, draw_item, &in);
    if (fits < found->count && rows > 0) {
        put_more(in.at, found->count - fits, "older items");
        in.at.row++;
    }
    return in.at;
}

static void draw_alerts(const alerts *found, place at, int rows)
{
    static const int pairs[] = {PLAIN, LEVEL_G, LEVEL_C, LEVEL_B, LEVEL_A};
    char text[WORDS];
    for (size_t from = 0; from < found->count && rows > 0; from++, rows--, at.row++) {
        int row = found->rows[from];
        desk_row said = found->report.rows[row];
        if (rows == 1 && from + 1 < found->count) {
            put_more(at, found->count - from, "alerts");
            return;
        }
        snprintf(text, sizeof text, " %c ", level_letter(said.level));
        put_text((place){at.row, at.column, 3}, pairs[said.level < 5 ? said.level : 0], text);
        snprintf(text, sizeof text, " %02d %s", row + 1, row_words(row, said.reason));
        put_text(behind(at, 3), said.level >= 3 ? HAPPY : PLAIN, text);
    }
}

/* A sheet in a part of the screen with so many rows; alerts have a third of them where not all fits. */
static void draw_sheet(const view *shown, uint64_t sheet, place at, int rows)
{
    char text[WORDS];
    const own_desk *desk = &shown->live->desk;
    size_t entries = entries_of(shown->live, sheet);
    latest found = {0, {0}};
    each_item(desk, sheet, count_item, &found);
    alerts alert = alerts_of(desk, sheet, shown->profile);
    snprintf(text, sizeof text, " SHEET %" PRIu64 " %s: %zu typed, %zu alert%s", sheet, camp_name(sheet),
             entries, alert.count, alert.count == 1 ? "" : "s");
    put_text(at, BENCH, text);
    at.row++;
    rows--;
    int items = (int)found.count, wanted = (int)alert.count;
    if (items + wanted > rows) {
        int third = rows / 3 < wanted ? rows / 3 : wanted;
        items = items < rows - third ? items : rows - third;
    }
    place below = draw_items(desk, sheet, at, items, &found);
    draw_alerts(&alert, below, rows - (below.row - at.row));
}

/* A camp that has neither keypads nor entries is not shown. */
static bool is_shown(const view *shown, uint64_t sheet)
{
    if (sheet == 0 || entries_of(shown->live, sheet) > 0)
        return true;
    for (uint64_t bench = 0; bench < DESK_BENCHES; bench++)
        if (sheet_of(bench) == sheet && input_of(shown, bench) != NULL)
            return true;
    return false;
}

static void draw_sheets(const view *shown, int row, int rows)
{
    int count = 0, column = 0;
    for (uint64_t sheet = 0; sheet < DESK_SHEETS; sheet++)
        count += is_shown(shown, sheet);
    int width = (COLS - (count - 1)) / count;
    for (uint64_t sheet = 0; sheet < DESK_SHEETS; sheet++) {
        if (!is_shown(shown, sheet))
            continue;
        if (column > 0)
            for (int line = row; line < row + rows; line++)
                mvaddch(line, column - 1, '|');
        draw_sheet(shown, sheet, (place){row, column, width}, rows);
        column += width + 1;
    }
}

/* The next row of an answer: at most so many columns of a line. The place behind it. */
static const char *row_end(const char *from, size_t *length)
{
    size_t line = strcspn(from, "\n"), most = (size_t)COLS;
    *length = line < most ? line : most;
    return from + *length + (*length == line && from[line] == '\n');
}

/* The rows of an answer that there is room for, from the first that is asked for. */
static void draw_answer(view *shown, int row, int rows)
{
    console_state *console = &shown->console;
    size_t count = 0, length, at = 0;
    for (const char *from = console->answer; *from != '\0'; count++)
        from = row_end(from, &length);
    size_t room = rows > 1 ? (size_t)rows - 1 : 1;
    size_t most = count > room ? count - room : 0;
    if (console->from > most)
        console->from = most;
    for (const char *from = console->answer, *next; *from != '\0'; from = next, at++) {
        next = row_end(from, &length);
        if (at >= console->from && at < console->from + room)
            put(row_of(row + (int)(at - console->from)), PLAIN, from, length);
    }
    put_text(row_of(row + rows - 1), TITLE, most > 0 ? " Page Up and Page Down show more, Enter the sheets"
                                                     : " Enter shows the sheets again");
}

/* The last notice, or its end, with a mark. */
static void draw_notice(const words_shown *notice)
{
    size_t length = strlen(notice->text), room = (size_t)COLS;
    place at = row_of(LINES - 2);
    int pair = notice->as == BAD ? SORRY : PLAIN;
    if (length <= room) {
        put_text(at, pair, notice->text);
        return;
    }
    put_text(at, pair, "<");
    put_text(behind(at, 1), pair, notice->text + length - (room - 1));
}

static void draw_console(const view *shown)
{
    const console_state *console = &shown->console;
    size_t room = COLS > 12 ? (size_t)COLS - 12 : 1;
    size_t from = console->length > room ? console->length - room : 0;
    place at = row_of(LINES - 1);
    put_text(at, BENCH, " desk> ");
    put(behind(at, 7), PLAIN, "", 0);
    put(behind(at, 8), PLAIN, console->line + from, console->length - from);
    move(LINES - 1, 8 + (int)(console->length - from));
}

void draw_screen(view *shown)
{
    erase();
    draw_title(shown);
    int row = draw_benches(shown, LINES >= ROOMY ? 2 : 1);
    int rows = LINES - 2 - row;
    if (rows > 0 && shown->console.answer != NULL && *shown->console.answer != '\0')
        draw_answer(shown, row, rows);
    else if (rows > 0)
        draw_sheets(shown, row, rows);
    draw_notice(&shown->notice);
    draw_console(shown);
    refresh();
}

static void scroll_answer(console_state *console, int lines)
{
    if (lines < 0 && console->from < (size_t)-lines)
        console->from = 0;
    else
        console->from += (size_t)lines;
}

bool read_screen(view *shown)
{
    for (int typed = getch(); typed != ERR; typed = getch()) {
        switch (typed) {
        case '\r':
        case '\n':
        case KEY_ENTER:
            if (!enter_console(shown))
                return false;
            break;
        case CONTROL_C:
            return false;
        case KEY_BACKSPACE:
        case '\b':
        case DELETE:
            erase_console(&shown->console);
            break;
        case KEY_UP:
            scroll_answer(&shown->console, -1);
            break;
        case KEY_DOWN:
            scroll_answer(&shown->console, 1);
            break;
        case KEY_PPAGE:
            scroll_answer(&shown->console, -10);
            break;
        case KEY_NPAGE:
            scroll_answer(&shown->console, 10);
            break;
        case ESCAPE:
            shown->console.length = 0;
            shown->console.too_long = false;
            break;
        default:
            if (typed <= 126)
                type_console(&shown->console, (char)typed);
            break;
        }
    }
    return true;
}
