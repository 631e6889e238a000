/* The drivers of asrun, `Console` (0), `Counter` (1) and `Cell` (2), for hosts in C (docs/RATTLE_HOST.md, "Console"). */
#ifndef DRIVERS_H
#define DRIVERS_H

#include "bustlebrick.h"

/* An object of a counter or a cell, under its place as the key; keys are not used again. */
struct object {
    int32_t value, step;
    bool is_live;
};

struct objects {
    struct object *all;
    size_t count, room;
};

struct drivers {
    int64_t reg;
    struct objects counters, cells;
    uint64_t asks;
};

/* Answers an ask: `data` is the drivers. */
void drivers_answer(void *data, const bb_ask *ask, bb_answer *answer);

/* Lets go of the objects whose end a reply tells. */
void drivers_replied(struct drivers *drivers, const char *reply, size_t bytes);

/* How many objects are live. */
size_t drivers_live(const struct drivers *drivers);

void drivers_free(struct drivers *drivers);

#endif
