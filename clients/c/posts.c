/* What scripts have posted: each line is read as the program writes it, and kept until the host was told it. */
#include "engine.h"
#include "plain.h"

#include <stdlib.h>
#include <string.h>

/* What is not a count of values. */
static const size_t none = SIZE_MAX;

/* ---- Reading */

/* Reads the front of a post; or gives NULL where a text does not begin with one. */
static struct bb_front *read_front(struct bb_front *front, const char *text, const char *end)
{
    const char *values = bb_read_front(text, end, &front->ask);
    bool is_post = values && end - values >= 2 && front->ask.posted && front->ask.kind == BB_CALL && !front->ask.has_object &&
                   values - text <= MOST_FRONT;
    front->bytes = is_post ? (size_t)(values - text) : 0;
    memcpy(front->text, text, front->bytes);
    return is_post ? front : NULL;
}

/* Whether a text may have a front. The function's first digit tells most apart. */
static inline bool may_have(const struct bb_front *front, const char *text, size_t bytes)
{
    return front->bytes && front->bytes < bytes && text[12] == front->text[12] && text[front->bytes - 1] == '(';
}

/* The front with which a text begins, one that was read before or not; or NULL where there is none. */
static struct bb_front *front_of(struct bb_kept *kept, const char *text, size_t bytes)
{
    for (size_t at = 0; at < FRONTS; at++)
        if (may_have(&kept->fronts[at], text, bytes) && is_post_with(&kept->fronts[at], text, bytes))
            return &kept->fronts[at];
    return read_front(&kept->fronts[kept->next_front++ % FRONTS], text, text + bytes);
}

/* Reads the values behind a front, with the end of the line, and gives how many these are, or none where there is something
   else. Most often there are as many as the function had before. */
static size_t read_values(struct bb_front *front, const char *text, const char *end, bb_value *values)
{
    const char *at = text + front->bytes, *last = end - 2;
    if (memcmp(last, ")\n", 2) == 0 && read_plains(at, last, values, front->count) == last)
        return front->count;
    bb_ask ask;
    if (bb_read_values(at, end, &ask, values) != end)
        return none;
    front->count = ask.count;
    return ask.count;
}

/* ---- Keeping */

/* How many more calls of the last run may be kept, so that there is room for any post as long as there is for one of these. */
static size_t room_of_run(const struct bb_kept *kept, size_t count)
{
    size_t most = MOST_VALUES - MOST_ARGUMENTS, used = kept->values_kept + kept->empty_calls;
    if (kept->runs_kept == MOST_RUNS || used > most)
        return 0;
    return (most - used) / (count ? count : 1);
}

/* Begins a run with a call of a front's function, whose values stand behind those that are kept. */
static bb_posts *begin_run(struct bb_kept *kept, const struct bb_front *front, size_t count)
{
    bb_posts *run = &kept->runs[kept->runs_kept++];
    if (run > kept->runs && !run[-1].count)
        kept->empty_calls += run[-1].calls;
    *run = (bb_posts){front->ask.driver, front->ask.function, 1, count, kept->values + kept->values_kept};
    kept->values_kept += count;
    kept->room = room_of_run(kept, count);
    return run;
}

/* Puts a call of a front's function, with so many values, onto the last run, if that is one of such calls; or gives NULL. */
static bb_posts *go_on(struct bb_kept *kept, const struct bb_front *front, size_t count)
{
    bb_posts *run = kept->runs_kept ? &kept->runs[kept->runs_kept - 1] : NULL;
    if (!run || run->driver != front->ask.driver || run->function != front->ask.function || run->count != count)
        return NULL;
    run->calls++;
    kept->values_kept += count;
    kept->room--;
    return run;
}

/* Keeps a call of a front's function, with so many values. */
static void keep(struct bb_kept *kept, struct bb_front *front, size_t count)
{
    bb_posts *run = go_on(kept, front, count);
    if (!run)
        run = begin_run(kept, front, count);
    kept->front = front;
    kept->last = run;
}

enum bb_keeping bb_keep_post(bb_engine *engine, const char *text, size_t bytes)
{
    if (!engine->posts && !(engine->posts = calloc(1, sizeof *engine->posts)))
        return BB_NO_MEMORY;
    struct bb_kept *kept = engine->posts;
    struct bb_front *front = front_of(kept, text, bytes);
    size_t count = front ? read_values(front, text, text + bytes, kept->values + kept->values_kept) : none;
    if (count == none) {
        kept->last = NULL; /* whose front may be read over */
        return BB_NO_POST;
    }
    keep(kept, front, count);
    return BB_KEPT;
}

/* ---- Telling */

/* Takes the first call of the next run. */
static bool next_run(bb_engine *engine)
{
    struct bb_kept *kept = engine->posts;
    if (kept->runs_told == kept->runs_kept)
        return false;
    const bb_posts *run = &kept->runs[kept->runs_told++];
    kept->left = run->calls - 1;
    kept->waits = true;
    engine->ask = (bb_ask){BB_CALL, run->driver, run->function, false, true, 0, run->count, engine->values};
    bb_tell_values(engine, run->values);
    return true;
}

bool bb_next_post(bb_engine *engine)
{
    return engine->posts && !engine->input_ended && (bb_next_call(engine) || next_run(engine));
}

void bb_forget_posts(bb_engine *engine)
{
    struct bb_kept *kept = engine->posts;
    if (!kept)
        return;
    kept->runs_kept = kept->values_kept = kept->empty_calls = kept->room = kept->runs_told = kept->left = 0;
    kept->last = NULL;
    kept->waits = false;
}

const bb_posts *bb_rest_of_posts(bb_engine *engine, size_t *runs)
{
    struct bb_kept *kept = engine->posts;
    if (!kept->waits)
        return NULL;
    bb_posts *first = &kept->runs[kept->runs_told - 1];
    first->calls = kept->left + 1;
    first->values = kept->told;
    *runs = kept->runs_kept - kept->runs_told + 1;
    kept->runs_told = kept->runs_kept;
    kept->left = 0;
    kept->waits = false;
    return first;
}
