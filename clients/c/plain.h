/* Reading a post as the program writes it, in the pieces in which it has just written it: a processor hands on what was stored
   to a load that wants no more than one store has, and else the load waits. What is read here is a front that was read before,
   and values that are no handles; lines.c reads all lines. */
#ifndef BB_PLAIN_H
#define BB_PLAIN_H

#include "engine.h"

#include <string.h>

static inline uint32_t four_at(const char *text)
{
    uint32_t four;
    memcpy(&four, text, sizeof four);
    return four;
}

/* Whether a text has a front of so many bytes, `post 0 call 12 - (`. A driver's number has two digits at most, so what is not
   looked at is the same in all fronts. */
static inline bool has_front(const char *text, const char *front, size_t bytes)
{
    uint32_t words = (four_at(text) ^ four_at(front)) | (four_at(text + bytes - 4) ^ four_at(front + bytes - 4));
    uint8_t rest = (uint8_t)((text[5] ^ front[5]) | (text[6] ^ front[6]));
    for (size_t at = 12; at < bytes - 4; at++)
        rest |= (uint8_t)(text[at] ^ front[at]);
    return !(words | rest);
}

static inline unsigned digit_at(const char *at)
{
    return (unsigned)(unsigned char)*at - '0';
}

/* Reads `7` or `7u`, of which something else ends the digits, and gives where it ends. */
static inline const char *read_natural(const char *at, bb_value *value)
{
    uint64_t number = digit_at(at);
    for (unsigned digit; (digit = digit_at(++at)) < 10;)
        number = number * 10 + digit;
    value->kind = BB_INT;
    value->as.u64 = number;
    if (__builtin_expect(*at != 'u', true))
        return at;
    value->kind = BB_UINT;
    return at + 1;
}

/* Reads `true` or `false` in front of `last`, where `)` stands, likewise; or gives NULL where there is something else. */
static inline const char *read_truth(const char *at, const char *last, bb_value *value)
{
    value->kind = BB_BOOL;
    value->as.u64 = 0;
    if (last - at >= 4 && four_at(at) == four_at("true")) {
        value->as.truth = true;
        return at + 4;
    }
    return last - at >= 5 && four_at(at) == four_at("fals") && at[4] == 'e' ? at + 5 : NULL;
}

/* The same of a value that is no handle. */
static inline const char *read_plain(const char *at, const char *last, bb_value *value)
{
    if (digit_at(at) < 10)
        return read_natural(at, value);
    if (*at != '-')
        return read_truth(at, last, value);
    if (digit_at(++at) >= 10)
        return NULL;
    at = read_natural(at, value);
    value->as.u64 = 0 - value->as.u64;
    return value->kind == BB_INT ? at : NULL;
}

/* The same of so many values, with a comma between two. */
static inline const char *read_plains(const char *at, const char *last, bb_value *values, size_t count)
{
    for (size_t read = 0; read < count; read++) {
        if (read && *at++ != ',')
            return NULL;
        at = read_plain(at, last, &values[read]);
        if (!at)
            return NULL;
    }
    return at;
}

/* Whether a text is a post with a front, and with values behind it of which `)` ends the last. */
static inline bool is_post_with(const struct bb_front *front, const char *text, size_t bytes)
{
    return bytes >= front->bytes + 2 && memcmp(text + bytes - 2, ")\n", 2) == 0 && has_front(text, front->text, front->bytes);
}

#endif
