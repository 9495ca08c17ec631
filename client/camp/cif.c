/* camp cif: a sheet that a session leaves or a log gives, as a CIF file. */
#include <stdlib.h>

#include "commands.h"
#include "log.h"
#include "messages.h"
#include "options.h"
#include "session.h"

enum { WRITTEN = 0, BAD_BLOCK_NAME = 11, NO_SUCH_SHEET = 12 };

const char cif_usage[] =
    "usage: camp cif [--sheet SHEET] BLOCK [FILE] <SESSION\n"
    "       camp cif [--sheet SHEET] --log LOG BLOCK [FILE]\n"
    "\n"
    "Plays a session, which comes by standard input, as the desk does, or reads a log, and writes a\n"
    "sheet that it leaves as a CIF file. Refused keys of a session are passed over: look at 'camp\n"
    "refusals' first.\n"
    "\n"
    "  BLOCK     the name of the data block: 1 to 32 letters, digits or -\n"
    "  FILE      where the file goes; without it, and with -, to standard output. FILE appears\n"
    "            whole or not at all: it is written beside its place and then renamed.\n"
    "  SESSION   the keys, for each of them a bench digit and the key's byte\n"
    "  LOG       a log, as 'camp record' writes it; - for standard input\n"
    "  SHEET     0, of benches 0 and 1, or 1, of the visitors at benches 2 and 3; without it, 0\n"
    "\n"
    "After an argument -- nothing is an option, not even a block name --sheet.\n"
    "\n"
    "Exit status: 0 written; 1 refused, or it cannot be read or written, or the log is damaged; 2 wrong\n"
    "use. Standard error says why, and a FILE that was there before stays as it was; but of a damaged\n"
    "log what stands before the damage is written.\n"
    "\n"
    "Example:\n"
    "\n"
    "  $ camp cif camp-1 sheet.cif <session\n"
    "  $ cat sheet.cif\n"
    "  data_camp-1\n"
    "  _refine_ls_R_factor_gt 0.16\n"
    "  _refine_ls_wR_factor_obs 0.2\n";

static int refused(unsigned answer, uint64_t sheet, const char *block, const char *file)
{
    if (answer == NO_SUCH_SHEET)
        return no_sheet(sheet);
    if (answer == BAD_BLOCK_NAME) {
        fputs("camp: block name '", stderr);
        show_text(stderr, block);
        fputs("': ", stderr);
    } else {
        about(stderr, file);
    }
    show_refusal(stderr, answer);
    putc('\n', stderr);
    return STATUS_FOUND;
}

/* A sheet of a desk, to the path; the desk is from this file. */
static int write_sheet(const own_desk *desk, uint64_t sheet, const char *block, const char *path,
                       const char *file)
{
    static uint8_t out[DESK_FILE];
    desk_filed filed = write_file(desk, sheet, block, out);
    if (filed.answer != WRITTEN)
        return refused(filed.answer, sheet, block, file);
    return write_whole(path, out, filed.count) ? STATUS_DONE : STATUS_FOUND;
}

/* The desk that the session by standard input leaves. */
static bool play_input(own_desk *desk)
{
    content session;
    if (!read_whole("-", &session))
        return false;
    play(desk, &session);
    free(session.bytes);
    return true;
}

int cif_run(int count, char **words)
{
    static log_reader reader;
    arguments_of arguments = {"cif", count, words};
    sheets asked = {0, 0};
    const char *log = NULL;
    if (!take_sheet(&arguments, &asked) || !take_value(&arguments, "--log", &log))
        return STATUS_MISUSED;
    if (log != NULL && no_file(log) != NULL)
        return misused("cif", log, no_file(log));
    end_options(&arguments);
    if (arguments.count < 1)
        return misused("cif", NULL, "BLOCK, the name of the data block, is missing");
    if (arguments.count > 2)
        return misused("cif", words[2], "is one argument too many");
    const char *path = arguments.count == 2 ? words[1] : "-";
    if (no_file(path) != NULL)
        return misused("cif", path, no_file(path));
    if (!(log == NULL ? play_input(&reader.desk) : read_log(log, &reader, NULL, NULL)))
        return STATUS_FOUND;
    const char *file = input_name(log == NULL ? "-" : log);
    int status = write_sheet(&reader.desk, asked.first, words[0], path, file);
    int damage = tell_damage(file, &reader);
    return status == STATUS_DONE ? damage : status;
}
