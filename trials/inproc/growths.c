/* Refuses growths of the heap, one at a time, in each command of a session, over the library built with BB_TRIAL.

       growths PROFILE SESSION ..

   Of each command the first 200 growths are refused in turn, and of the later ones one in each 64th part of what was
   before. A command that is so refused something ends in want of memory, or as it would have, and the engine takes the
   rest of the session; or it ends the engine with the status 3, which may only be for one of the first growths: those
   that are not cancelled (READING in clients/c/program.c). Prints how many were refused, and the last of those that
   ended the engine. */
#include "bustlebrick.h"
#include "commands.h"
#include "drivers.h"

#include <stdio.h>
#include <stdlib.h>
#include <string.h>

enum { READING = 128 };

void bb_refuse_growth(bb_engine *engine, size_t number);
size_t bb_growths(const bb_engine *engine);

struct session {
    struct text profile, text;
};

struct told {
    size_t refused, ended, last, other;
};

static bb_engine *started(const struct session *session, struct drivers *drivers)
{
    bb_options options = {.profile = session->profile.bytes, .profile_bytes = session->profile.count, .drivers = 3};
    options.host = drivers_answer;
    options.data = drivers;
    bb_engine *engine = bb_new(&options);
    if (!engine)
        exit(9);
    return engine;
}

/* Does the command at a place of the session; the place of the next one is given. */
static size_t do_command(const struct session *session, size_t at, bb_engine *engine, struct drivers *drivers)
{
    size_t bytes, count = command_at(session->text.bytes + at, session->text.count - at);
    if (bb_command(engine, session->text.bytes + at, count) == BB_DONE) {
        const char *reply = bb_reply(engine, &bytes);
        drivers_replied(drivers, reply, bytes);
    }
    return at + count;
}

/* An engine that has done what stands before a place. */
static bb_engine *come_to(const struct session *session, size_t place, struct drivers *drivers)
{
    bb_engine *engine = started(session, drivers);
    for (size_t at = 0; at < place;)
        at = do_command(session, at, engine, drivers);
    return engine;
}

static char *outcome_of(const bb_engine *engine)
{
    size_t bytes;
    const char *outcome = bb_outcome(engine, &bytes);
    return strndup(outcome, bytes);
}

/* Refuses one growth of the command at a place. Whether it had so many. */
static bool refuse(const struct session *session, size_t place, size_t number, const char *wanted, struct told *told)
{
    struct drivers drivers = {0};
    bb_engine *engine = come_to(session, place, &drivers);
    bb_refuse_growth(engine, number);
    size_t at = do_command(session, place, engine, &drivers);
    bool had = bb_growths(engine) >= number;
    char *outcome = outcome_of(engine);
    if (had && bb_state_of(engine) == BB_ENDED) {
        told->ended++;
        told->last = number > told->last ? number : told->last;
        told->other += bb_status(engine) != 3;
    } else if (had && !strstr(outcome, "Memory") && strcmp(outcome, wanted) != 0) {
        told->other++;
        printf("WRONG: growth %zu of %.40s: %s\n", number, session->text.bytes + place, outcome);
    }
    told->refused += had;
    bb_refuse_growth(engine, 0);
    while (bb_state_of(engine) == BB_DONE && at < session->text.count)
        at = do_command(session, at, engine, &drivers);
    free(outcome);
    bb_free(engine);
    drivers_free(&drivers);
    return had;
}

static char *wanted_of(const struct session *session, size_t place)
{
    struct drivers drivers = {0};
    bb_engine *engine = come_to(session, place, &drivers);
    do_command(session, place, engine, &drivers);
    char *outcome = outcome_of(engine);
    bb_free(engine);
    drivers_free(&drivers);
    return outcome;
}

int main(int count, char **words)
{
    struct told told = {0};
    for (int at = 1; at + 1 < count; at += 2) {
        struct session session = {text_of(words[at]), text_of(words[at + 1])};
        for (size_t place = 0; place < session.text.count;) {
            char *wanted = wanted_of(&session, place);
            for (size_t number = 1; refuse(&session, place, number, wanted, &told);)
                number += number < 200 ? 1 : number / 64;
            free(wanted);
            place += command_at(session.text.bytes + place, session.text.count - place);
        }
        free(session.profile.bytes);
        free(session.text.bytes);
    }
    bool is_bad = told.other || told.last > READING;
    printf("%s%zu growths were refused in turn; %zu of them ended the engine, the last of these was growth %zu of its "
           "command\n",
           is_bad ? "WRONG: " : "", told.refused, told.ended, told.last);
    return is_bad;
}
