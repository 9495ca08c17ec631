/*
 * The subcommands. A new one is a source file NAME.c, with NAME_usage and NAME_run, and a line here.
 */
#ifndef CAMP_COMMANDS_H
#define CAMP_COMMANDS_H

#include <stddef.h>

/* Each with its name and what it does. */
#define COMMANDS(COMMAND)                                                    \
    COMMAND(cif, "write a sheet of a session or a log as a CIF file")        \
    COMMAND(help, "tell what a command does, with an example")               \
    COMMAND(history, "tell each entry of a log")                             \
    COMMAND(hydrogen, "tell how many hydrogens fit the weight")              \
    COMMAND(record, "write the log of a session to a file")                  \
    COMMAND(refusals, "tell each key of a session that is refused, and why") \
    COMMAND(report, "print the reports of a log, as desk does")              \
    COMMAND(run, "run the desk: keypads, a log that lasts, a screen")        \
    COMMAND(symmetry, "tell whether symmetry operators are a group")         \
    COMMAND(who, "tell who typed the items of a log, and how often")

/* NAME_usage is what 'camp help NAME' prints; NAME_run takes what follows, and returns the status. */
#define COMMAND_DECLARED(name, summary) \
    extern const char name##_usage[];   \
    int name##_run(int count, char **arguments);
COMMANDS(COMMAND_DECLARED)
#undef COMMAND_DECLARED

typedef struct {
    const char *name;
    const char *summary;
    const char *usage;
    int (*run)(int count, char **arguments);
} command;

/* All of them; the last has no name. */
extern const command commands[];

/* The subcommand of that name; NULL for none. */
const command *command_named(const char *name);

#endif
