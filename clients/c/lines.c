/* The lines of a conversation: asks, answers, and the form of commands (docs/FORMATS.md). */
#include "engine.h"

#include <string.h>
#include <strings.h>

/* ---- Reading asks */

/* What is left to read of a text. */
struct reader {
    const char *at, *end;
};

/* Goes past a text, if it is next. A post has ten of these: in line, with a text that is known, each is a comparison. */
__attribute__((always_inline)) static inline bool take(struct reader *reader, const char *text)
{
    size_t bytes = strlen(text);
    if ((size_t)(reader->end - reader->at) < bytes || memcmp(reader->at, text, bytes) != 0)
        return false;
    reader->at += bytes;
    return true;
}

/* What a byte is as a digit: below 10, if it is one. */
static inline unsigned digit_of(char byte)
{
    return (unsigned)(unsigned char)byte - '0';
}

static inline bool take_number(struct reader *reader, uint64_t *number)
{
    const char *from = reader->at;
    uint64_t sum = 0;
    unsigned digit;
    for (; reader->at < reader->end && (digit = digit_of(*reader->at)) < 10; reader->at++)
        sum = sum * 10 + digit;
    *number = sum;
    return reader->at > from;
}

static inline bool take_small_number(struct reader *reader, uint32_t *number)
{
    uint64_t whole;
    bool is_one = take_number(reader, &whole) && whole <= UINT32_MAX;
    *number = (uint32_t)whole;
    return is_one;
}

/* `7`, `-7`, `7u` */
static inline bool take_integer(struct reader *reader, bb_value *value)
{
    bool is_negative = take(reader, "-");
    uint64_t number;
    if (!take_number(reader, &number))
        return false;
    value->kind = !is_negative && take(reader, "u") ? BB_UINT : BB_INT;
    value->as.u64 = is_negative ? 0 - number : number;
    return true;
}

static inline bool take_value(struct reader *reader, bb_value *value)
{
    if (reader->at < reader->end && (digit_of(*reader->at) < 10 || *reader->at == '-'))
        return take_integer(reader, value);
    value->as.u64 = 0;
    if (take(reader, "#")) {
        value->kind = BB_KEY;
        return take_number(reader, &value->as.key);
    }
    if (take(reader, "null")) {
        value->kind = BB_NULL;
        return true;
    }
    value->kind = BB_BOOL;
    value->as.truth = take(reader, "true");
    return value->as.truth || take(reader, "false");
}

/* `V,V)`, behind the parenthesis, with the end of the line */
static inline bool take_values(struct reader *reader, bb_ask *ask, bb_value *values)
{
    size_t count = 0;
    if (!take(reader, ")"))
        do {
            if (count == MOST_ARGUMENTS || !take_value(reader, &values[count]))
                return false;
            count++;
        } while (take(reader, ","));
    if (count && !take(reader, ")"))
        return false;
    ask->count = count;
    ask->values = values;
    return take(reader, "\n");
}

static inline bool take_ask_kind(struct reader *reader, bb_ask_kind *kind)
{
    bool is_one = true;
    if (take(reader, " call "))
        *kind = BB_CALL;
    else if (take(reader, " read "))
        *kind = BB_READ;
    else if (take(reader, " write "))
        *kind = BB_WRITE;
    else if (take(reader, " make "))
        *kind = BB_MAKE;
    else
        is_one = false;
    return is_one;
}

/* `#7`, or `-` for none */
static inline bool take_object(struct reader *reader, bb_ask *ask)
{
    ask->has_object = take(reader, "#");
    ask->object = 0;
    return ask->has_object ? take_number(reader, &ask->object) : take(reader, "-");
}

/* `ask DRIVER KIND F OBJECT (V,V)`, or the same with `post` */
const char *bb_read_front(const char *text, const char *end, bb_ask *ask)
{
    struct reader reader = {text, end};
    ask->posted = take(&reader, "post ");
    bool is_one = (ask->posted || take(&reader, "ask ")) && take_small_number(&reader, &ask->driver) &&
                  take_ask_kind(&reader, &ask->kind) && take_small_number(&reader, &ask->function) && take(&reader, " ") &&
                  take_object(&reader, ask) && take(&reader, " (");
    return is_one ? reader.at : NULL;
}

const char *bb_read_values(const char *text, const char *end, bb_ask *ask, bb_value values[MOST_ARGUMENTS])
{
    struct reader reader = {text, end};
    return take_values(&reader, ask, values) ? reader.at : NULL;
}

/* ---- Writing answers, each of which has room: the longest, a key, has 28 bytes */

static char *put_text(char *to, const char *text)
{
    size_t bytes = strlen(text);
    memcpy(to, text, bytes);
    return to + bytes;
}

static char *put_number(char *to, uint64_t number)
{
    char digits[20];
    int count = 0;
    do
        digits[count++] = (char)('0' + number % 10);
    while (number /= 10);
    while (count)
        *to++ = digits[--count];
    return to;
}

static char *put_signed(char *to, int64_t number)
{
    if (number >= 0)
        return put_number(to, (uint64_t)number);
    *to++ = '-';
    return put_number(to, 0 - (uint64_t)number);
}

/* A kind that is none becomes a line that is no answer. */
static char *put_value(char *to, const bb_value *value)
{
    switch (value->kind) {
    case BB_INT:
        return put_signed(to, value->as.i64);
    case BB_UINT:
        return put_text(put_number(to, value->as.u64), "u");
    case BB_BOOL:
        return put_text(to, value->as.truth ? "true" : "false");
    case BB_KEY:
        return put_number(put_text(to, "#"), value->as.key);
    case BB_NULL:
        return put_text(to, "null");
    }
    return put_text(to, "?");
}

static char *put_answer(char *to, const bb_answer *answer)
{
    switch (answer->kind) {
    case BB_VOID:
        return put_text(to, "void");
    case BB_GAVE:
        return put_value(to, &answer->value);
    case BB_MADE:
        return put_number(put_text(to, "made #"), answer->value.as.key);
    case BB_NOTHING:
        return put_text(to, "nothing");
    case BB_FAULT:
        return put_number(put_text(to, "fault "), answer->fault);
    case BB_MEMORY:
        return put_text(to, "memory");
    }
    return put_text(to, "?");
}

size_t bb_write_answer(char line[MOST_ANSWER], const bb_answer *answer)
{
    return (size_t)(put_text(put_answer(line, answer), "\n") - line);
}

/* ---- The form of commands */

size_t bb_count_lines(const char *text, size_t bytes)
{
    size_t count = 0;
    const char *end = text + bytes;
    while (text < end) {
        const char *line_end = memchr(text, '\n', (size_t)(end - text));
        text = line_end ? line_end + 1 : end;
        count++;
    }
    return count;
}

/* Whether the first letters of a line are `section`, in either case: only a head of a section may have these, since
   what follows another one could be the text of a script (docs/FORMATS.md, "The conversation of asremote"). */
static bool is_like_head(const char *line, size_t bytes)
{
    size_t at = 0;
    while (at < bytes && !('a' <= (line[at] | 0x20) && (line[at] | 0x20) <= 'z'))
        at++;
    return bytes - at >= 7 && strncasecmp(line + at, "section", 7) == 0;
}

/* `section NAME N`: how many lines follow it. */
static bool is_head(const char *line, size_t bytes, uint64_t *lines)
{
    struct reader reader = {line, line + bytes};
    if (!take(&reader, "section "))
        return false;
    const char *space = memchr(reader.at, ' ', (size_t)(reader.end - reader.at));
    if (!space || space == reader.at)
        return false;
    reader.at = space + 1;
    return reader.end - reader.at <= 10 && take_number(&reader, lines) && reader.at == reader.end;
}

bool bb_is_command(const char *text, size_t bytes)
{
    const char *lf = bytes ? memchr(text, '\n', bytes) : NULL;
    size_t line = lf ? (size_t)(lf - text) : bytes, first = lf ? line + 1 : bytes;
    size_t whole = bytes + (!bytes || text[bytes - 1] != '\n');
    uint64_t lines = 0;
    if (line && text[line - 1] == '\r')
        line--;
    bool is_comment = line && text[0] == '#';
    if (!is_comment && is_like_head(text, line) && !is_head(text, line, &lines))
        return false;
    return whole <= MOST_COMMAND && bb_count_lines(text + first, bytes - first) == lines;
}
