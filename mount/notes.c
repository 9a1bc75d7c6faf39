#include "notes.h"
#include <stdarg.h>
#include <stdio.h>
#include <string.h>

#define MOST_LINE 1024

/* Lets go of whole lines until there is room. */
static void make_room(struct notes *notes, size_t wanted) {
    size_t gone = notes->bytes + wanted > NOTES_BYTES ? notes->bytes + wanted - NOTES_BYTES : 0;
    if (!gone)
        return;
    const char *end = memchr(notes->text + gone - 1, '\n', notes->bytes - gone + 1);
    gone = end ? (size_t)(end - notes->text) + 1 : notes->bytes;
    notes->bytes -= gone;
    memmove(notes->text, notes->text + gone, notes->bytes);
}

void note(struct notes *notes, const char *format, ...) {
    char line[MOST_LINE];
    va_list words;
    va_start(words, format);
    int bytes = vsnprintf(line, sizeof line, format, words);
    va_end(words);
    if (bytes < 0)
        return;
    size_t some = (size_t)bytes < sizeof line ? (size_t)bytes : sizeof line - 1;
    line[some - (some > 0)] = '\n';
    make_room(notes, some);
    memcpy(notes->text + notes->bytes, line, some);
    notes->bytes += some;
}
