#include "commands.h"

#include <stdio.h>
#include <stdlib.h>
#include <string.h>

struct text text_of(const char *path)
{
    FILE *file = fopen(path, "rb");
    struct text text = {NULL, 0};
    size_t room = 0, some = 1;
    if (!file) {
        perror(path);
        exit(9);
    }
    while (some) {
        room = 2 * room + 4096;
        text.bytes = realloc(text.bytes, room);
        if (!text.bytes)
            abort();
        some = fread(text.bytes + text.count, 1, room - text.count, file);
        text.count += some;
    }
    fclose(file);
    return text;
}

static size_t line_at(const char *text, size_t bytes)
{
    const char *end = memchr(text, '\n', bytes);
    return end ? (size_t)(end + 1 - text) : bytes;
}

/* The count of `section NAME N`, and 0 of any other line. */
static unsigned long counted(const char *line, size_t bytes)
{
    char head[512], name[512], more[2];
    unsigned long lines = 0;
    if (bytes >= sizeof head || bytes < 9 || memcmp(line, "section ", 8) != 0 || line[8] == ' ')
        return 0;
    memcpy(head, line, bytes);
    head[bytes] = 0;
    head[strcspn(head, "\r\n")] = 0;
    return sscanf(head, "section %511[^ ] %10lu%1s", name, &lines, more) == 2 ? lines : 0;
}

size_t command_at(const char *text, size_t bytes)
{
    size_t at = line_at(text, bytes);
    for (unsigned long lines = counted(text, at); lines && at < bytes; lines--)
        at += line_at(text + at, bytes - at);
    return at;
}
