/* A file, and the commands in the text of a session. */
#ifndef COMMANDS_H
#define COMMANDS_H

#include <stddef.h>

struct text {
    char *bytes;
    size_t count;
};

/* The text of a file, which the caller frees. Ends the process where it can't be read. */
struct text text_of(const char *path);

/* The bytes of the command at the start of a text: its first line, and as many as a head of a section counts, or those
   that are there. */
size_t command_at(const char *text, size_t bytes);

#endif
