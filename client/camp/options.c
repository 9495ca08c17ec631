/* Options among the arguments of a command. */
#include "options.h"

#include <stddef.h>
#include <string.h>

#include "files.h"
#include "messages.h"

/* The place of an option, or of the end of the arguments; -- ends the options. */
static int place_of(const arguments_of *arguments, const char *name, int from)
{
    for (int at = from; at < arguments->count; at++) {
        if (strcmp(arguments->words[at], name) == 0)
            return at;
        if (strcmp(arguments->words[at], "--") == 0)
            break;
    }
    return arguments->count;
}

/* Takes out so many words. */
static void take(arguments_of *arguments, int at, int words)
{
    for (int to = at; to + words < arguments->count; to++)
        arguments->words[to] = arguments->words[to + words];
    arguments->count -= words;
}

bool take_next(arguments_of *arguments, const char *name, const char **value)
{
    int at = place_of(arguments, name, 0);
    *value = NULL;
    if (at == arguments->count)
        return true;
    if (at + 1 == arguments->count) {
        misused(arguments->command, name, "lacks what belongs to it");
        return false;
    }
    *value = arguments->words[at + 1];
    take(arguments, at, 2);
    return true;
}

bool take_value(arguments_of *arguments, const char *name, const char **value)
{
    const char *taken;
    if (!take_next(arguments, name, &taken))
        return false;
    if (taken == NULL)
        return true;
    *value = taken;
    if (place_of(arguments, name, 0) == arguments->count)
        return true;
    misused(arguments->command, name, "stands twice");
    return false;
}

bool take_flag(arguments_of *arguments, const char *name, bool *flag)
{
    int at = place_of(arguments, name, 0);
    if (at == arguments->count)
        return true;
    *flag = true;
    take(arguments, at, 1);
    if (place_of(arguments, name, 0) == arguments->count)
        return true;
    misused(arguments->command, name, "stands twice");
    return false;
}

void end_options(arguments_of *arguments)
{
    int at = place_of(arguments, "--", 0);
    if (at < arguments->count)
        take(arguments, at, 1);
}

bool read_number(const char *digits, uint64_t *number)
{
    if (*digits == '\0')
        return false;
    for (*number = 0; *digits >= '0' && *digits <= '9'; digits++) {
        uint64_t digit = (uint64_t)(*digits - '0');
        *number = *number > (UINT64_MAX - digit) / 10 ? UINT64_MAX : 10 * *number + digit;
    }
    return *digits == '\0';
}

bool take_sheet(arguments_of *arguments, sheets *asked)
{
    const char *digits = NULL;
    if (!take_value(arguments, "--sheet", &digits))
        return false;
    if (digits == NULL)
        return true;
    if (!read_number(digits, &asked->first)) {
        misused(arguments->command, digits, "is not the number of a sheet");
        return false;
    }
    asked->last = asked->first;
    return true;
}

int log_arguments(const char *command, int count, char **words, sheets *asked, bool *json,
                  const char **log)
{
    arguments_of arguments = {command, count, words};
    if (!take_sheet(&arguments, asked) || !take_flag(&arguments, "--json", json))
        return STATUS_MISUSED;
    end_options(&arguments);
    if (arguments.count < 1)
        return misused(command, NULL, "LOG, the file of a log, is missing");
    if (arguments.count > 1)
        return misused(command, words[1], "is one argument too many");
    if (no_file(words[0]) != NULL)
        return misused(command, words[0], no_file(words[0]));
    *log = words[0];
    return STATUS_DONE;
}
