/*
 * camp: the desk of the crystal camp for people, by the proved library. 'camp help' says how.
 */
#include <stdio.h>
#include <string.h>

#include "commands.h"
#include "messages.h"
#include "version.h"

static int version(int count, char **arguments)
{
    if (count > 0)
        return misused(NULL, arguments[0], "is one argument too many");
    puts("camp " CAMP_VERSION);
    return STATUS_DONE;
}

/* Runs the command that the first argument names. */
static int run(int count, char **arguments)
{
    if (count < 1)
        return misused(NULL, NULL, "a command is missing");
    if (strcmp(arguments[0], "--version") == 0)
        return version(count - 1, arguments + 1);
    const char *name = strcmp(arguments[0], "--help") == 0 ? "help" : arguments[0];
    const command *named = command_named(name);
    if (named == NULL)
        return misused(NULL, name, *name == '-' ? "is not an option" : "is not a command");
    if (count == 2 && strcmp(arguments[1], "--help") == 0) {
        fputs(named->usage, stdout);
        return STATUS_DONE;
    }
    return named->run(count - 1, arguments + 1);
}

int main(int count, char **arguments)
{
    return output_ended(run(count - 1, arguments + 1));
}
