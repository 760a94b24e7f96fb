/* Prints the paragraphs of a text in lines of at most eight characters. Each line is in visual order, for a
 * terminal that does not know the algorithm. The source is UTF-8, and so are its string literals. */
#include "unicode_bidi.h"

#include <stdio.h>
#include <stdlib.h>
#include <string.h>

enum { MOST = 8 };

static const char TEXT[] = "car (מכונית) 12 אבג\nשלום עולם 12";

/* Returns a result that is not negative. Ends the program if it is. */
static size_t checked(int64_t result) {
    if (result < 0) {
        fprintf(stderr, "unicode_bidi: fault %lld\n", (long long)result);
        exit(1);
    }
    return (size_t)result;
}

/* Returns the end of the line that begins at `start`: MOST characters later, but at most `end`. */
static size_t line_end(const uint8_t *text, size_t start, size_t end) {
    size_t at = start;
    for (int n = 0; n < MOST && at < end; n++) {
        do at++;
        while (at < end && (text[at] & 0xC0) == 0x80);
    }
    return at;
}

int main(void) {
    const uint8_t *text = (const uint8_t *)TEXT;
    size_t n = strlen(TEXT);
    uint8_t classes[sizeof TEXT], levels[sizeof TEXT], shown[sizeof TEXT];
    unicode_bidi_paragraph paragraphs[sizeof TEXT];

    size_t count = checked(unicode_bidi_analyse_utf8(text, n, UNICODE_BIDI_AUTO, UNICODE_BIDI_EACH_SEPARATOR, classes, n,
                                                     levels, n, paragraphs, sizeof paragraphs / sizeof *paragraphs));
    for (size_t i = 0; i < count; i++) {
        const unicode_bidi_paragraph *p = &paragraphs[i];
        size_t last = p->end; /* the end without the separator */
        while (last > p->start && classes[last - 1] == UNICODE_BIDI_B) last--;
        for (size_t start = p->start; start < last;) {
            size_t end = line_end(text, start, last);
            size_t length = checked(unicode_bidi_reorder_line_utf8(text, n, classes, n, levels, n, p, start, end,
                                                                   shown, sizeof shown));
            printf("%.*s\n", (int)length, (const char *)shown);
            start = end;
        }
    }
    return 0;
}
