#include "drivers.h"

#include <stdio.h>
#include <stdlib.h>
#include <string.h>

enum { UNKNOWN = 1 };

static void fault(bb_answer *answer, uint32_t number)
{
    answer->kind = BB_FAULT;
    answer->fault = number;
}

static void give(bb_answer *answer, int64_t number)
{
    answer->kind = BB_GAVE;
    answer->value = (bb_value){BB_INT, {number}};
}

static bool are_signed(const bb_ask *ask, size_t count)
{
    if (ask->count != count)
        return false;
    for (size_t at = 0; at < count; at++)
        if (ask->values[at].kind != BB_INT)
            return false;
    return true;
}

/* Whether the values are so many signed ones of 32 bits. */
static bool are_ints(const bb_ask *ask, size_t count)
{
    if (!are_signed(ask, count))
        return false;
    for (size_t at = 0; at < count; at++)
        if (ask->values[at].as.i64 != (int32_t)ask->values[at].as.i64)
            return false;
    return true;
}

static int32_t sum_wrapped(int32_t one, int64_t other)
{
    return (int32_t)((uint32_t)one + (uint32_t)other);
}

/* ---- Objects */

static void make(struct objects *objects, int32_t value, bb_answer *answer)
{
    if (objects->count == objects->room) {
        objects->room = 2 * objects->room + 8;
        objects->all = realloc(objects->all, objects->room * sizeof *objects->all);
        if (!objects->all)
            abort();
    }
    objects->all[objects->count] = (struct object){value, 1, true};
    answer->kind = BB_MADE;
    answer->value.as.key = objects->count++;
}

static struct object *live(struct objects *objects, uint64_t key)
{
    if (key >= objects->count || !objects->all[key].is_live) {
        fprintf(stderr, "an object is asked that is not live\n");
        abort();
    }
    return &objects->all[key];
}

/* ---- Each driver */

static void console(struct drivers *it, const bb_ask *ask, bb_answer *answer)
{
    int64_t sum;
    bool calls = ask->kind == BB_CALL;
    if (calls && ask->function == 0)
        return;
    if (calls && ask->function == 1 && are_signed(ask, 2)) {
        if (__builtin_add_overflow(ask->values[0].as.i64, ask->values[1].as.i64, &sum))
            fault(answer, 2);
        else
            give(answer, sum);
    } else if (calls && ask->function == 2 && ask->count == 1 && ask->values[0].kind == BB_UINT &&
               ask->values[0].as.u64 <= UINT32_MAX)
        fault(answer, (uint32_t)ask->values[0].as.u64);
    else if (ask->kind == BB_READ && ask->function == 0)
        give(answer, it->reg);
    else if (ask->kind == BB_WRITE && ask->function == 0 && are_signed(ask, 1))
        it->reg = ask->values[0].as.i64;
    else
        fault(answer, UNKNOWN);
}

static void make_counter(struct objects *counters, const bb_ask *ask, bb_answer *answer)
{
    if (ask->function == 0 && ask->count == 0)
        make(counters, 0, answer);
    else if (ask->function == 1 && are_ints(ask, 1))
        make(counters, (int32_t)ask->values[0].as.i64, answer);
    else
        fault(answer, UNKNOWN);
}

static void counter(struct objects *counters, const bb_ask *ask, bb_answer *answer)
{
    if (ask->kind == BB_MAKE) {
        make_counter(counters, ask, answer);
        return;
    }
    struct object *it = ask->has_object ? live(counters, ask->object) : NULL;
    bool calls = ask->kind == BB_CALL && ask->count == 0;
    if (it && calls && ask->function == 0)
        it->value = sum_wrapped(it->value, it->step);
    else if (it && calls && ask->function == 1)
        give(answer, it->value);
    else if (it && ask->kind == BB_READ && ask->function == 0)
        give(answer, it->step);
    else if (it && ask->kind == BB_WRITE && ask->function == 0 && are_ints(ask, 1))
        it->step = (int32_t)ask->values[0].as.i64;
    else
        fault(answer, UNKNOWN);
}

static void make_cell(struct objects *cells, const bb_ask *ask, bb_answer *answer)
{
    const bb_value *values = ask->values;
    if (ask->function == 0 && are_ints(ask, 1))
        make(cells, (int32_t)values[0].as.i64, answer);
    else if (ask->function == 1 && ask->count == 2 && values[0].kind == BB_KEY && values[1].kind == BB_INT)
        make(cells, sum_wrapped(live(cells, values[0].as.key)->value, values[1].as.i64), answer);
    else
        fault(answer, UNKNOWN);
}

static void cell(struct objects *cells, const bb_ask *ask, bb_answer *answer)
{
    if (ask->kind == BB_MAKE) {
        make_cell(cells, ask, answer);
        return;
    }
    struct object *it = ask->has_object ? live(cells, ask->object) : NULL;
    bool calls = ask->kind == BB_CALL;
    if (it && calls && ask->function == 0 && ask->count == 0)
        give(answer, it->value);
    else if (it && calls && ask->function == 1 && are_ints(ask, 1))
        it->value = (int32_t)ask->values[0].as.i64;
    else if (!it && calls && ask->function == 2 && ask->count == 1 && ask->values[0].kind >= BB_KEY) {
        answer->kind = BB_GAVE;
        answer->value = ask->values[0];
    } else
        fault(answer, UNKNOWN);
}

/* ---- All of them */

void drivers_answer(void *data, const bb_ask *ask, bb_answer *answer)
{
    struct drivers *drivers = data;
    drivers->asks++;
    if (ask->driver == 0)
        console(drivers, ask, answer);
    else if (ask->driver == 1)
        counter(&drivers->counters, ask, answer);
    else
        cell(&drivers->cells, ask, answer);
}

void drivers_replied(struct drivers *drivers, const char *reply, size_t bytes)
{
    const char *end = reply + bytes;
    while (reply < end) {
        const char *line_end = memchr(reply, '\n', (size_t)(end - reply));
        if (line_end - reply > 7 && memcmp(reply, "end ", 4) == 0) {
            struct objects *objects = reply[4] == '1' ? &drivers->counters : &drivers->cells;
            live(objects, strtoull(reply + 7, NULL, 10))->is_live = false;
        }
        reply = line_end + 1;
    }
}

static size_t count_live(const struct objects *objects)
{
    size_t count = 0;
    for (size_t at = 0; at < objects->count; at++)
        count += objects->all[at].is_live;
    return count;
}

size_t drivers_live(const struct drivers *drivers)
{
    return count_live(&drivers->counters) + count_live(&drivers->cells);
}

void drivers_free(struct drivers *drivers)
{
    free(drivers->counters.all);
    free(drivers->cells.all);
    *drivers = (struct drivers){0};
}
