/* Wraps a paragraph at spaces into lines of at most 24 characters, and prints each line from left to right, with mirrored
 * brackets: as a terminal or a printer needs it that does not know the algorithm. The source is UTF-8, and so are its
 * string literals.
 *
 *   cc wrapped.c $(pkg-config --cflags --libs unicode_bidi) -o wrapped */
#include <unicode_bidi.h>

#include <stdio.h>
#include <stdlib.h>
#include <string.h>

enum { WIDTH = 24 };

static const char TEXT[] = "הספרייה unicode_bidi (גרסה 0.1) מציגה עברית, ערבית ואנגלית [גם יחד] בשורה אחת (ראו UAX #9).";

/* Returns a result that is not negative. Ends the program if it is. */
static size_t checked(int64_t result) {
    if (result < 0) {
        fprintf(stderr, "unicode_bidi: fault %lld\n", (long long)result);
        exit(1);
    }
    return (size_t)result;
}

/* Returns memory for so many elements. Ends the program if there is none. */
static void *allocated(size_t count, size_t size) {
    void *memory = calloc(count ? count : 1, size);
    if (!memory) {
        fputs("out of memory\n", stderr);
        exit(1);
    }
    return memory;
}

/* Returns whether a byte is in a character, but not its first byte. */
static int continues(uint8_t byte) { return (byte & 0xC0) == 0x80; }

/* Returns the end of the line that begins at `start`: behind the last white space that fits, or behind the last
 * character that fits. White space at the end of a line may be past its width. */
static size_t line_end(const uint8_t *text, const uint8_t *classes, size_t start, size_t end) {
    size_t at = start, after_space = start;
    for (int characters = 0; at < end; characters++) {
        int is_space = classes[at] == UNICODE_BIDI_WS;
        if (characters >= WIDTH && !is_space) return after_space > start ? after_space : at;
        do at++;
        while (at < end && continues(text[at]));
        if (is_space) after_space = at;
    }
    return end;
}

/* Returns the first character of `text`, which has `length` bytes of UTF-8. */
static uint32_t decoded(const uint8_t *text, size_t length) {
    uint32_t character = length == 1 ? text[0] : text[0] & (0x7Fu >> length);
    for (size_t i = 1; i < length; i++) character = character << 6 | (text[i] & 0x3Fu);
    return character;
}

/* Prints a character in UTF-8. */
static void print_character(uint32_t character) {
    static const uint32_t first_byte[] = {0, 0xC0, 0xE0, 0xF0}; /* by the number of bytes that follow */
    int following = character < 0x80 ? 0 : character < 0x800 ? 1 : character < 0x10000 ? 2 : 3;
    putchar((int)(first_byte[following] | character >> 6 * following));
    while (following-- > 0) putchar((int)(0x80 | (character >> 6 * following & 0x3F)));
}

/* Prints the characters of a run of an odd level: from the last to the first, each as its mirrored partner (L4). */
static void print_reversed(const uint8_t *text, size_t start, size_t end) {
    while (end > start) {
        size_t first = end - 1;
        while (continues(text[first])) first--;
        print_character((uint32_t)checked(unicode_bidi_mirrored(decoded(text + first, end - first))));
        end = first;
    }
}

/* Prints a line from left to right: its runs in visual order. */
static void print_line(const uint8_t *text, const unicode_bidi_run *runs, size_t count) {
    for (size_t i = 0; i < count; i++) {
        if (runs[i].level % 2)
            print_reversed(text, runs[i].start, runs[i].end);
        else
            printf("%.*s", (int)(runs[i].end - runs[i].start), (const char *)text + runs[i].start);
    }
    putchar('\n');
}

int main(void) {
    const uint8_t *text = (const uint8_t *)TEXT;
    size_t length = strlen(TEXT);
    uint8_t *classes = allocated(length, sizeof *classes), *levels = allocated(length, sizeof *levels);
    unicode_bidi_run *runs = allocated(length, sizeof *runs);
    unicode_bidi_paragraph paragraph;
    checked(unicode_bidi_analyse_utf8(text, length, UNICODE_BIDI_AUTO, UNICODE_BIDI_ONE_PARAGRAPH, classes, length, levels,
                                      length, &paragraph, 1));
    for (size_t start = 0; start < length;) {
        size_t end = line_end(text, classes, start, length);
        size_t count = checked(unicode_bidi_line_runs(classes, length, levels, length, &paragraph, start, end, runs, length));
        print_line(text, runs, count);
        start = end;
    }
    free(runs);
    free(levels);
    free(classes);
    return 0;
}
