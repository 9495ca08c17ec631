/* The subcommands as a table. */
#include "commands.h"

#include <string.h>

#define COMMAND_LISTED(name, summary) {#name, summary, name##_usage, name##_run},
const command commands[] = {
    COMMANDS(COMMAND_LISTED)
    {NULL, NULL, NULL, NULL},
};
#undef COMMAND_LISTED

const command *command_named(const char *name)
{
    for (const command *at = commands; at->name != NULL; at++)
        if (strcmp(at->name, name) == 0)
            return at;
    return NULL;
}
