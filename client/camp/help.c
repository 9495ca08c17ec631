/* camp help: what camp does, and each of its commands. */
#include <stdio.h>

#include "commands.h"
#include "messages.h"

const char help_usage[] =
    "usage: camp help [COMMAND]\n"
    "\n"
    "Tells what a command does, what it takes and how it ends, with an example; without COMMAND, the\n"
    "list of all. 'camp COMMAND --help' tells the same.\n"
    "\n"
    "Exit status: 0 told; 1 it cannot be written; 2 wrong use.\n"
    "\n"
    "Example:\n"
    "\n"
    "  $ camp help refusals\n";

static const char before[] =
    "usage: camp COMMAND [ARGUMENT..]\n"
    "       camp --help\n"
    "       camp --version\n"
    "\n"
    "Looks after the sessions and logs of the crystal camp, by the proved desk, and after lists of\n"
    "symmetry operators. The commands:\n"
    "\n";

static const char after[] =
    "\n"
    "'camp help COMMAND' tells more of one. A session is a file of keys, for each of them two bytes: the\n"
    "digit of the bench, 0 to 3, and the key's byte. A log is a file of records, one for each accepted\n"
    "entry, as 'camp record' writes it. The name - stands for standard input or output.\n"
    "\n"
    "Exit status: 0 done; 1 something is found or refused, or a file cannot be read or written; 2 wrong\n"
    "use.\n"
    "\n"
    "Example:\n"
    "\n"
    "  $ camp refusals session\n"
    "  camp: session: 0 of 57 keys refused\n";

static void list(void)
{
    fputs(before, stdout);
    for (const command *at = commands; at->name != NULL; at++)
        printf("  %-10s %s\n", at->name, at->summary);
    fputs(after, stdout);
}

int help_run(int count, char **arguments)
{
    if (count == 0) {
        list();
        return STATUS_DONE;
    }
    if (count > 1)
        return misused("help", arguments[1], "is one argument too many");
    const command *named = command_named(arguments[0]);
    if (named == NULL)
        return misused(NULL, arguments[0], "is not a command");
    fputs(named->usage, stdout);
    return STATUS_DONE;
}
