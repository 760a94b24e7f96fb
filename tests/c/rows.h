/* Files of rows, as crates/bidi_vectors/data has them: README.md there says what stands in one.
 * A row that cannot be read ends the tests with its file and line. */
#include <stdbool.h>
#include <stdint.h>
#include <stdio.h>
#include <stdlib.h>
#include <string.h>

#define FAIL(...) (fprintf(stderr, "failed: "), fprintf(stderr, __VA_ARGS__), fputc('\n', stderr), exit(1))

enum { FIELDS = 64, ITEMS = 700, ITEM = 24 };

typedef struct {
    const char *key, *value;
    size_t line;
} field;

typedef struct {
    const char *file, *kind, *name;
    size_t line, count;
    field fields[FIELDS];
} row;

/* What a field says, each word as often as it says: up to ITEMS of them. */
typedef struct {
    size_t count;
    char items[ITEMS][ITEM];
} list;

#define BAD_ROW(r, ...) (fprintf(stderr, "failed: %s:%zu: %s: ", (r)->file, (r)->line, (r)->name), fprintf(stderr, __VA_ARGS__), fputc('\n', stderr), exit(1))

static const char *get(const row *r, const char *key) {
    for (size_t i = 0; i < r->count; i++)
        if (!strcmp(r->fields[i].key, key)) return r->fields[i].value;
    return NULL;
}

static void push_item(const row *r, list *l, const char *from, size_t len) {
    if (len >= ITEM) BAD_ROW(r, "a long word");
    if (l->count < ITEMS) memcpy(l->items[l->count], from, len), l->items[l->count][len] = 0;
    l->count++;
}

/* The words of a text; a count above ITEMS where there are more. */
static void expand(const row *r, const char *s, list *l) {
    l->count = 0;
    while (*(s += strspn(s, " "))) {
        size_t len = strcspn(s, " "), digits = strspn(s, "0123456789"), times = 1;
        const char *word = s, *end = s + len;
        bool repeated = digits && digits + 1 < len && s[digits] == '*';
        if (repeated) times = strtoul(s, NULL, 10), word = s + digits + 1;
        for (; times && l->count <= ITEMS; times--) {
            const char *part = word;
            if (!repeated || end - word == 1) push_item(r, l, word, end - word);
            else
                for (; part <= end; part++) {
                    const char *dot = memchr(part, '.', end - part);
                    if (!dot) dot = end;
                    push_item(r, l, part, dot - part);
                    part = dot;
                }
        }
        s = end;
    }
}

/* The words of a field. Whether the row has it, and no more of them than there is room for. */
static bool words(const row *r, const char *key, list *l) {
    const char *value = get(r, key);
    if (!value) return false;
    expand(r, value, l);
    return l->count <= ITEMS;
}

static char *trimmed(char *s) {
    s += strspn(s, " \t");
    for (char *end = s + strlen(s); end > s && strchr(" \t\r\n", end[-1]);) *--end = 0;
    return s;
}

static void run_row(row *r, void (*run)(const row *)) {
    if (r->kind) run(r);
    r->kind = NULL, r->count = 0;
}

/* Runs each row of a file. */
static void each_row(const char *folder, const char *file, void (*run)(const row *)) {
    char path[4096];
    snprintf(path, sizeof path, "%s/%s", folder, file);
    FILE *in = fopen(path, "rb");
    if (!in) FAIL("%s cannot be read", path);
    static char text[1 << 20];
    size_t n = fread(text, 1, sizeof text - 1, in);
    if (n == sizeof text - 1 || ferror(in)) FAIL("%s cannot be read as a whole", path);
    fclose(in);
    text[n] = 0;
    static row r;
    r = (row){.file = file};
    size_t number = 0;
    for (char *at = text, *line; (line = strsep(&at, "\n"));) {
        number++;
        line = trimmed(line);
        if (!*line || *line == '#') continue;
        char *close = *line == '[' ? strstr(line, "] ") : NULL, *colon = strchr(line, ':');
        if (close) {
            run_row(&r, run);
            *close = 0;
            r.kind = line + 1, r.name = trimmed(close + 2), r.line = number;
        } else if (colon && r.kind && r.count < FIELDS) {
            *colon = 0;
            r.fields[r.count++] = (field){trimmed(line), trimmed(colon + 1), number};
        } else
            FAIL("%s:%zu: no line of a row", file, number);
    }
    run_row(&r, run);
}
