#include "log.h"

/* Steps over the word and the space behind it, if the text begins so. */
static int takes(const char **text, const char *word)
{
    const char *at = *text;
    for (; *word; at++, word++)
        if (*at != *word)
            return 0;
    if (*at != ' ')
        return 0;
    *text = at + 1;
    return 1;
}

static uint32_t take_number(const char **text)
{
    uint32_t number = 0;
    for (; **text >= '0' && **text <= '9'; ++*text)
        number = 10 * number + (uint32_t)(**text - '0');
    *text += **text == ' ';
    return number;
}

static void skip_line(const char **text)
{
    while (**text && **text != '\n')
        ++*text;
    *text += **text == '\n';
}

/* Whether the first line of the text ends in " done". */
static int is_done(const char *text)
{
    const char *end = text;
    skip_line(&end);
    return end - text >= 6 && end[-6] == ' ' && end[-5] == 'd' && end[-1] == '\n';
}

static void take_held(struct log *log, const char **text)
{
    log->last_call = take_number(text);
    for (uint32_t number = 0; number < LOGICAL; number++)
        log->held[number] = take_number(text);
    log->is_cut = 0;
}

/* `stores` is whether the call is a write. Where not even its number, from 1 on, is all there, it was not begun. */
static void take_call(struct log *log, const char **text, int stores)
{
    uint32_t number = take_number(text), call = take_number(text);
    if ((*text)[-1] != ' ' || call == 0)
        return;
    log->last_call = call;
    log->number = number;
    log->after = stores ? call : 0;
    log->is_cut = !is_done(*text);
    if (!log->is_cut)
        log->held[number] = log->after;
}

struct log read_log(const char *text)
{
    struct log log = {0};
    for (; *text; skip_line(&text), log.lines++)
        if (takes(&text, "seed"))
            log.seed = take_number(&text);
        else if (takes(&text, "held")) {
            if (is_done(text))
                take_held(&log, &text);
        } else if (takes(&text, "write"))
            take_call(&log, &text, 1);
        else if (takes(&text, "release"))
            take_call(&log, &text, 0);
    return log;
}
