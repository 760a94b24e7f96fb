/* The library as a caller in C has it: the worked rows in three encodings, each fault, null pointers, want of memory at
 * each request, and random calls.
 *   callers FOLDER CALLS SEED
 * FOLDER is that of the rows.
 * Each buffer ends where a page without leave to read or write begins, and the units before it are
 * watched, so that a call that leaves its buffers is seen. */
#define _DEFAULT_SOURCE
#include "unicode_bidi.h"

#include <stdbool.h>
#include <stdio.h>
#include <stdlib.h>
#include <string.h>
#include <sys/mman.h>

#include "rows.h"

#define COUNT(a) (sizeof(a) / sizeof *(a))
#define AUTO UNICODE_BIDI_AUTO
#define WHOLE UNICODE_BIDI_ONE_PARAGRAPH
#define SPLIT UNICODE_BIDI_EACH_SEPARATOR
#define TOGETHER UNICODE_BIDI_CR_LF_TOGETHER

/* ---- the library's heap, as the kit's liblibc_c.a has it, with one request to be refused ---- */

struct tried {
    bool ok;
    void *p;
};

static long until_refusal = -1; /* how many requests are granted before one is refused; -1: none is */
static bool was_refused;
static char nothing;

static bool refuse(void) {
    if (until_refusal < 0 || until_refusal-- > 0) return false;
    return was_refused = true;
}

struct tried rattle_alloc(size_t n, size_t align) {
    void *p = refuse() ? NULL : malloc(n ? n : align);
    return (struct tried){p != NULL, p ? p : &nothing};
}

struct tried rattle_realloc(void *from, size_t kept, size_t n, size_t align) {
    (void)kept;
    void *p = refuse() ? NULL : realloc(from, n ? n : align);
    return (struct tried){p != NULL, p ? p : &nothing};
}

void rattle_dealloc(void *p) { free(p); }

/* ---- buffers at a page's end ---- */

enum { PAGE = 4096, ROOM = 64 * PAGE, WATCHED = 64 };

typedef struct {
    unsigned char *end;
} arena;

static arena new_arena(void) {
    unsigned char *all = mmap(NULL, ROOM + PAGE, PROT_READ | PROT_WRITE, MAP_PRIVATE | MAP_ANONYMOUS, -1, 0);
    if (all == MAP_FAILED || mprotect(all + ROOM, PAGE, PROT_NONE)) FAIL("no pages");
    return (arena){all + ROOM};
}

/* A buffer of so many bytes, each with this value. */
static void *buffer(arena a, size_t bytes, unsigned char value) {
    if (bytes + WATCHED > ROOM) FAIL("a buffer of %zu bytes", bytes);
    memset(a.end - bytes - WATCHED, 0xA5, WATCHED);
    memset(a.end - bytes, value, bytes);
    return a.end - bytes;
}

static void *copied(arena a, const void *from, size_t bytes) {
    void *to = buffer(a, bytes, 0);
    if (bytes) memcpy(to, from, bytes);
    return to;
}

static void watch(arena a, size_t bytes, const char *what) {
    for (size_t i = 1; i <= WATCHED; i++)
        if (a.end[-(ptrdiff_t)(bytes + i)] != 0xA5) FAIL("%s: written before a buffer", what);
}

/* ---- the tables of classes and brackets that rows name ---- */

static const char *const CLASSES[] = {"L", "R", "AL", "EN", "ES", "ET", "AN", "CS", "NSM", "BN", "B", "S",
                                      "WS", "ON", "LRE", "LRO", "RLE", "RLO", "PDF", "LRI", "RLI", "FSI", "PDI"};

typedef struct {
    char name[80];
    size_t ranges, brackets;
    unicode_bidi_class_range range[FIELDS];
    unicode_bidi_bracket_pair bracket[FIELDS];
} source;

static source sources[32];
static size_t source_count;
static const source *now; /* the source that calls by tables use */

static const source *source_of(const row *r) {
    const char *name = get(r, "source");
    for (size_t i = 0; i < source_count; i++)
        if (!strcmp(sources[i].name, name ? name : "sample")) return &sources[i];
    BAD_ROW(r, "no source of this name stands before it");
}

static uint8_t class_of(const row *r, const char *word) {
    for (uint8_t i = 0; i < COUNT(CLASSES); i++)
        if (!strcmp(CLASSES[i], word)) return i;
    BAD_ROW(r, "%s is no class", word);
}

static uint32_t code_of(const row *r, const char *word) {
    if (word[0] && !word[1]) return (unsigned char)word[0];
    if (strncmp(word, "U+", 2)) BAD_ROW(r, "%s is no character", word);
    return strtoul(word + 2, NULL, 16);
}

static void read_source(const row *r) {
    if (strcmp(r->kind, "source") || strcmp(get(r, "fault") ? get(r, "fault") : "none", "none")) return;
    if (source_count == COUNT(sources)) BAD_ROW(r, "too many sources");
    source *s = &sources[source_count++];
    snprintf(s->name, sizeof s->name, "%s", r->name);
    for (size_t i = 0; i < r->count; i++) {
        static list l;
        expand(r, r->fields[i].value, &l);
        unsigned first, last;
        if (!strcmp(r->fields[i].key, "range")) {
            if (l.count != 2 || sscanf(l.items[0], "U+%x..U+%x", &first, &last) != 2) BAD_ROW(r, "a range");
            s->range[s->ranges++] = (unicode_bidi_class_range){first, last, class_of(r, l.items[1])};
        } else if (!strcmp(r->fields[i].key, "bracket")) {
            if (l.count < 2) BAD_ROW(r, "a pair of brackets");
            uint32_t opening = code_of(r, l.items[0]);
            s->bracket[s->brackets++] =
                (unicode_bidi_bracket_pair){opening, code_of(r, l.items[1]), l.count > 2 ? code_of(r, l.items[2]) : opening};
        }
    }
}

/* ---- the three encodings as one ---- */

enum { UTF8, UTF16, UTF32 };
static const char *const NAMES[] = {"utf8", "utf16", "utf32"};
static const size_t SIZES[] = {1, 2, 4};

#define BY_ENCODING(e, call, ...)                                                        \
    ((e) == UTF8 ? unicode_bidi_##call##_utf8((const uint8_t *)__VA_ARGS__)              \
     : (e) == UTF16 ? unicode_bidi_##call##_utf16((const uint16_t *)__VA_ARGS__)         \
                    : unicode_bidi_##call##_utf32((const uint32_t *)__VA_ARGS__))

static int64_t analyse(int e, bool tables, const void *text, size_t n, uint8_t base, uint8_t split,
                       uint8_t *classes, size_t nc, uint8_t *levels, size_t nl, unicode_bidi_paragraph *p, size_t np) {
    if (!tables) return BY_ENCODING(e, analyse, text, n, base, split, classes, nc, levels, nl, p, np);
    const unicode_bidi_class_range *ranges = now->range;
    const unicode_bidi_bracket_pair *brackets = now->bracket;
    size_t nr = now->ranges, nb = now->brackets;
    if (e == UTF8)
        return unicode_bidi_analyse_by_tables_utf8(ranges, nr, brackets, nb, text, n, base, split, classes, nc, levels, nl, p, np);
    if (e == UTF16)
        return unicode_bidi_analyse_by_tables_utf16(ranges, nr, brackets, nb, text, n, base, split, classes, nc, levels, nl, p, np);
    return unicode_bidi_analyse_by_tables_utf32(ranges, nr, brackets, nb, text, n, base, split, classes, nc, levels, nl, p, np);
}

static int64_t direction(int e, bool tables, const void *text, size_t n, uint8_t full) {
    if (!tables) return BY_ENCODING(e, base_direction, text, n, full);
    const unicode_bidi_class_range *ranges = now->range;
    const unicode_bidi_bracket_pair *brackets = now->bracket;
    size_t nr = now->ranges, nb = now->brackets;
    if (e == UTF8) return unicode_bidi_base_direction_by_tables_utf8(ranges, nr, brackets, nb, text, n, full);
    if (e == UTF16) return unicode_bidi_base_direction_by_tables_utf16(ranges, nr, brackets, nb, text, n, full);
    return unicode_bidi_base_direction_by_tables_utf32(ranges, nr, brackets, nb, text, n, full);
}

/* The same by the call that stops where the direction is decided. */
static int64_t first_direction(int e, const void *text, size_t n, uint8_t full) {
    return BY_ENCODING(e, first_direction, text, n, full);
}

static int64_t line_map(int e, const void *text, size_t n, const uint8_t *c, size_t nc, const uint8_t *l, size_t nl,
                        const unicode_bidi_paragraph *p, size_t start, size_t end, size_t *out, size_t room) {
    return BY_ENCODING(e, line_map, text, n, c, nc, l, nl, p, start, end, out, room);
}

static int64_t reorder_line(int e, const void *text, size_t n, const uint8_t *c, size_t nc, const uint8_t *l, size_t nl,
                            const unicode_bidi_paragraph *p, size_t start, size_t end, void *out, size_t room) {
    if (e == UTF8) return unicode_bidi_reorder_line_utf8(text, n, c, nc, l, nl, p, start, end, out, room);
    if (e == UTF16) return unicode_bidi_reorder_line_utf16(text, n, c, nc, l, nl, p, start, end, out, room);
    return unicode_bidi_reorder_line_utf32(text, n, c, nc, l, nl, p, start, end, out, room);
}

/* The buffers of unicode_bidi_show_line_*: the length of each, and where it is. */
typedef struct {
    size_t levels_len, runs_len, order_len, out_len;
    uint8_t *levels;
    unicode_bidi_run *runs;
    size_t *order;
    void *out;
} shown_line;

static int64_t show_line(int e, const void *text, size_t n, const uint8_t *c, size_t nc, const uint8_t *l, size_t nl,
                         const unicode_bidi_paragraph *p, size_t start, size_t end, const shown_line *s, size_t *characters) {
    if (e == UTF8)
        return unicode_bidi_show_line_utf8(text, n, c, nc, l, nl, p, start, end, s->levels, s->levels_len, s->runs, s->runs_len, s->order, s->order_len, s->out, s->out_len, characters);
    if (e == UTF16)
        return unicode_bidi_show_line_utf16(text, n, c, nc, l, nl, p, start, end, s->levels, s->levels_len, s->runs, s->runs_len, s->order, s->order_len, s->out, s->out_len, characters);
    return unicode_bidi_show_line_utf32(text, n, c, nc, l, nl, p, start, end, s->levels, s->levels_len, s->runs, s->runs_len, s->order, s->order_len, s->out, s->out_len, characters);
}

/* The buffers of unicode_bidi_display_line_*: the length of each, and where it is. */
typedef struct {
    size_t out_len, order_len, places_len;
    void *out;
    size_t *order, *places;
} displayed_line;

static int64_t display_line(int e, const void *text, size_t n, const uint8_t *c, size_t nc, const uint8_t *l, size_t nl,
                            const unicode_bidi_paragraph *p, size_t start, size_t end, uint32_t flags, const displayed_line *d, size_t *shown, size_t *characters) {
    if (e == UTF8)
        return unicode_bidi_display_line_utf8(text, n, c, nc, l, nl, p, start, end, flags, d->out, d->out_len, d->order, d->order_len, d->places, d->places_len, shown, characters);
    if (e == UTF16)
        return unicode_bidi_display_line_utf16(text, n, c, nc, l, nl, p, start, end, flags, d->out, d->out_len, d->order, d->order_len, d->places, d->places_len, shown, characters);
    return unicode_bidi_display_line_utf32(text, n, c, nc, l, nl, p, start, end, flags, d->out, d->out_len, d->order, d->order_len, d->places, d->places_len, shown, characters);
}

/* ---- texts: characters, and in each encoding their units and places ---- */

enum { MOST = 512 };

typedef struct {
    size_t len;
    bool is_utf16_alone;          /* a surrogate stands in no pair */
    uint32_t chars[MOST];
    size_t units[3];              /* the length in units */
    size_t at[3][MOST + 1];       /* the place of each character */
    unsigned char in[3][4 * MOST]; /* the units */
} text;

static void push(text *t, uint32_t c) {
    if (t->len == MOST) FAIL("a long text");
    for (int e = UTF8; e <= UTF32; e++) t->at[e][t->len] = t->units[e];
    unsigned char *b = t->in[UTF8] + t->units[UTF8];
    if (c < 0x80) b[0] = c, t->units[UTF8] += 1;
    else if (c < 0x800) b[0] = 0xC0 | c >> 6, b[1] = 0x80 | (c & 63), t->units[UTF8] += 2;
    else if (c < 0x10000) b[0] = 0xE0 | c >> 12, b[1] = 0x80 | (c >> 6 & 63), b[2] = 0x80 | (c & 63), t->units[UTF8] += 3;
    else b[0] = 0xF0 | c >> 18, b[1] = 0x80 | (c >> 12 & 63), b[2] = 0x80 | (c >> 6 & 63), b[3] = 0x80 | (c & 63), t->units[UTF8] += 4;
    uint16_t pair[2] = {c, 0};
    size_t long16 = 1;
    if (c >= 0x10000) pair[0] = 0xD800 + ((c - 0x10000) >> 10), pair[1] = 0xDC00 + ((c - 0x10000) & 0x3FF), long16 = 2;
    memcpy(t->in[UTF16] + 2 * t->units[UTF16], pair, 2 * long16);
    t->units[UTF16] += long16;
    memcpy(t->in[UTF32] + 4 * t->units[UTF32], &c, 4);
    t->units[UTF32] += 1;
    t->chars[t->len++] = c;
    for (int e = UTF8; e <= UTF32; e++) t->at[e][t->len] = t->units[e];
}

/* The characters of UTF-8 that is known to be right. */
static void read_utf8(text *t, const char *from) {
    memset(t, 0, sizeof *t);
    for (const unsigned char *s = (const unsigned char *)from; *s;) {
        size_t n = *s < 0x80 ? 1 : *s < 0xE0 ? 2 : *s < 0xF0 ? 3 : 4;
        uint32_t c = n == 1 ? *s : *s & (0x7F >> n);
        for (size_t i = 1; i < n; i++) c = c << 6 | (s[i] & 63);
        push(t, c);
        s += n;
    }
}

static arena texts, classes_at, levels_at, rows_at, out_at, order_at, shown_at, places_at;

/* Whether a list is one entry a character, on each of its units. A dash fits any entry. */
static void see_list(const char *name, int e, const text *t, const list *wanted, const uint8_t *found, const char *const *names) {
    if (wanted->count != t->len) FAIL("%s: %zu entries for %zu characters", name, wanted->count, t->len);
    for (size_t k = 0; k < t->len; k++)
        for (size_t u = t->at[e][k]; u < t->at[e][k + 1]; u++) {
            char number[8];
            snprintf(number, sizeof number, "%d", found[u]);
            if (names && found[u] > 22) FAIL("%s in %s: class %d", name, NAMES[e], found[u]);
            const char *word = names ? names[found[u]] : number;
            if (strcmp(wanted->items[k], "-") && strcmp(wanted->items[k], word))
                FAIL("%s in %s: character %zu has %s and not %s", name, NAMES[e], k, word, wanted->items[k]);
        }
}

static void see(const char *name, int e, const text *t, const char *wanted, const uint8_t *found, const char *const *names) {
    static const row of_code = {.file = "callers.c", .name = "a list of words"};
    static list l;
    expand(&of_code, wanted, &l);
    see_list(name, e, t, &l, found, names);
}

/* The same of a row's field, where it has it. */
static void see_field(const row *r, const char *key, int e, const text *t, const uint8_t *found, const char *const *names) {
    static list l;
    if (words(r, key, &l)) see_list(r->name, e, t, &l, found, names);
}

/* The text of a row. Whether there is room for it. */
static bool read_text(const row *r, const char *key, text *t) {
    static list l;
    bool by_class = !get(r, key) && get(r, "types");
    memset(t, 0, sizeof *t);
    if (!words(r, by_class ? "types" : key, &l) || l.count > MOST) return false;
    static const uint32_t of_class[] = {'a', 0x5D0, 0x627, '1', '+', '$', 0x660, ',', 0x301, 0xAD, 0x2029, '\t',
                                        ' ', '!', 0x202A, 0x202D, 0x202B, 0x202E, 0x202C, 0x2066, 0x2067, 0x2068, 0x2069};
    for (size_t i = 0; i < l.count; i++) {
        uint32_t c = by_class ? of_class[class_of(r, l.items[i])] : code_of(r, l.items[i]);
        if (c - 0xD800 < 0x800) t->is_utf16_alone = true;
        push(t, c);
    }
    return true;
}

static uint8_t base_of(const row *r) {
    const char *base = get(r, "base");
    return !base || !strcmp(base, "auto") ? AUTO : (uint8_t)atoi(base);
}

/* Where a character of a row begins in an encoding. */
static size_t place_of(const row *r, const text *t, int e, size_t k) {
    if (k > t->len) BAD_ROW(r, "no character %zu", k);
    return t->at[e][k];
}

static long texts_seen, lines_seen, orders_seen, characters_seen, classes_seen, left_out;

static bool all_are(const void *from, size_t bytes, unsigned char value) {
    for (size_t i = 0; i < bytes; i++)
        if (((const unsigned char *)from)[i] != value) return false;
    return true;
}

/* The class and the bracket of a character by the tables of `now`, as the numbers of the calls. */
static uint8_t class_by_table(uint32_t c) {
    for (size_t i = 0; i < now->ranges; i++)
        if (now->range[i].first <= c && c <= now->range[i].last) return now->range[i].class_number;
    return UNICODE_BIDI_L;
}

static uint32_t bracket_by_table(uint32_t c) {
    for (size_t i = 0; i < now->brackets; i++) {
        const unicode_bidi_bracket_pair *pair = &now->bracket[i];
        if (pair->opening == c) return pair->normal_form + UNICODE_BIDI_OPENING;
        if (pair->closing == c) return pair->normal_form;
    }
    return 0;
}

static bool is_bracket_code(uint32_t code) {
    uint32_t c = code & ~UNICODE_BIDI_OPENING;
    return !code || (c >= 0x20 && c < 0x80000 && c - 0xD800 >= 0x800);
}

/* The classes and the brackets of a text have alone what the text has: each class, level and paragraph. */
static void see_by_classes(const char *what, const text *t, bool tables, uint8_t base, uint8_t split,
                           const uint8_t *wanted_classes, const uint8_t *wanted_levels, const unicode_bidi_paragraph *wanted, int64_t count) {
    uint8_t given[MOST];
    uint32_t codes[MOST];
    for (size_t k = 0; k < t->len; k++) {
        uint32_t c = t->chars[k] - 0xD800 < 0x800 ? 0xFFFD : t->chars[k];
        given[k] = tables ? class_by_table(c) : (uint8_t)unicode_bidi_class_of(c);
        codes[k] = tables ? bracket_by_table(c) : (uint32_t)unicode_bidi_bracket_of(c);
        if (!is_bracket_code(codes[k])) return;
        if (split == TOGETHER && k && t->chars[k - 1] == '\r' && t->chars[k] == '\n') return;
    }
    size_t n = t->len;
    const uint8_t *in = copied(texts, given, n);
    const uint32_t *brackets = copied(order_at, codes, n * sizeof *brackets);
    for (size_t more = 0; more < 2; more++) {
        uint8_t *c = buffer(classes_at, n + more, 99), *l = buffer(levels_at, n + more, 99);
        unicode_bidi_paragraph *p = buffer(rows_at, (count + more) * sizeof *p, 99);
        if (unicode_bidi_analyse_classes(in, n, brackets, n, base, split, c, n + more, l, n + more, p, count + more) != count)
            FAIL("%s: paragraphs by classes", what);
        if (memcmp(c, wanted_classes, n) || memcmp(l, wanted_levels, n)) FAIL("%s: levels by classes", what);
        for (int64_t k = 0; k < count; k++)
            if (p[k].start != wanted[k].start || p[k].end != wanted[k].end || p[k].level != wanted[k].level) FAIL("%s: a paragraph by classes", what);
        if (!all_are(c + n, more, 99) || !all_are(l + n, more, 99) || !all_are(p + count, more * sizeof *p, 99)) FAIL("%s: past the classes", what);
        watch(classes_at, n + more, what), watch(levels_at, n + more, what), watch(rows_at, (count + more) * sizeof *p, what);
    }
    uint8_t *c = buffer(classes_at, n, 99), *l = buffer(levels_at, n, 99);
    if (unicode_bidi_analyse_classes(in, n, brackets, n, base, split, c, n, l, n, (unicode_bidi_paragraph *)rows_at.end, 0) != count)
        FAIL("%s: counted by classes", what);
    classes_seen++;
}

static void see_kept(const char *what, int e, const text *t, uint8_t base, uint8_t split);

static void try_text(const row *r) {
    if (strcmp(r->kind, "text")) return;
    static text t;
    if (!read_text(r, "text", &t)) { left_out++; return; }
    now = source_of(r);
    texts_seen++;
    const char *s = get(r, "split");
    uint8_t split = !s || !strcmp(s, "each-separator") ? SPLIT : !strcmp(s, "whole") ? WHOLE : TOGETHER;
    for (int e = UTF8; e <= UTF32; e++) {
        size_t n = t.units[e], room = n + 1;
        const void *in = copied(texts, t.in[e], n * SIZES[e]);
        uint8_t *c = buffer(classes_at, n, 99), *l = buffer(levels_at, n, 99);
        unicode_bidi_paragraph *p = buffer(rows_at, room * sizeof *p, 0);
        int64_t count = analyse(e, true, in, n, base_of(r), split, c, n, l, n, p, room), k = 0;
        see_field(r, "classes", e, &t, c, CLASSES);
        see_field(r, "levels", e, &t, l, NULL);
        static list ps;
        if (words(r, "paragraphs", &ps)) {
            for (; k < (int64_t)ps.count; k++) {
                size_t from, to;
                int level;
                if (sscanf(ps.items[k], "%zu..%zu:%d", &from, &to, &level) != 3) BAD_ROW(r, "a paragraph");
                if (k >= count || p[k].start != place_of(r, &t, e, from) || p[k].end != place_of(r, &t, e, to) || p[k].level != level)
                    BAD_ROW(r, "%s: paragraph %s", NAMES[e], ps.items[k]);
            }
            if (k != count) BAD_ROW(r, "%s: %lld paragraphs", NAMES[e], (long long)count);
        }
        if (analyse(e, true, in, n, base_of(r), split, c, n, l, n, p, 0) != count) BAD_ROW(r, "%s: counted", NAMES[e]);
        watch(classes_at, n, r->name), watch(levels_at, n, r->name);
        if (e == UTF32) {
            uint8_t classes[MOST], levels[MOST];
            unicode_bidi_paragraph paragraphs[MOST + 1];
            memcpy(classes, c, n), memcpy(levels, l, n), memcpy(paragraphs, p, count * sizeof *p);
            see_by_classes(r->name, &t, true, base_of(r), split, classes, levels, paragraphs, count);
        }
        see_kept(r->name, e, &t, base_of(r), split);
    }
}

/* Runs of a line, against those of a row. */
static void see_runs(const row *r, int e, const text *t, const unicode_bidi_run *runs, int64_t count, const uint8_t *levels) {
    static list l;
    if (!words(r, "runs", &l)) return;
    if ((int64_t)l.count != count) BAD_ROW(r, "%s: %lld runs", NAMES[e], (long long)count);
    for (size_t k = 0; k < l.count; k++) {
        size_t from, to;
        if (sscanf(l.items[k], "%zu..%zu", &from, &to) != 2) BAD_ROW(r, "a run");
        if (runs[k].start != place_of(r, t, e, from) || runs[k].end != place_of(r, t, e, to) || runs[k].level != levels[runs[k].start])
            BAD_ROW(r, "%s: run %s", NAMES[e], l.items[k]);
    }
}

/* ---- all that a line shows, in one call ---- */

/* Buffers of so many entries, each byte with this value. */
static shown_line shown_buffers(int e, size_t levels, size_t runs, size_t order, size_t out, unsigned char value) {
    return (shown_line){levels, runs, order, out, buffer(shown_at, levels, value), buffer(rows_at, runs * sizeof(unicode_bidi_run), value),
                        buffer(order_at, order * sizeof(size_t), value), buffer(out_at, out * SIZES[e], value)};
}

static void watch_shown(int e, const shown_line *s, const char *what) {
    watch(shown_at, s->levels_len, what), watch(rows_at, s->runs_len * sizeof *s->runs, what);
    watch(order_at, s->order_len * sizeof *s->order, what), watch(out_at, s->out_len * SIZES[e], what);
}

/* A call that tells a fault has written nothing. */
static void see_unwritten(int e, const shown_line *s, size_t characters, unsigned char value, const char *what) {
    if (!all_are(s->levels, s->levels_len, value) || !all_are(s->runs, s->runs_len * sizeof *s->runs, value)
        || !all_are(s->order, s->order_len * sizeof *s->order, value) || !all_are(s->out, s->out_len * SIZES[e], value) || characters != 99)
        FAIL("%s in %s: a fault of show_line that wrote", what, NAMES[e]);
}

/* One call, with each choice of buffers, writes what the calls for each part write. Too little room in any of them is a fault. */
static void see_shown(const char *what, int e, const void *in, size_t n, const uint8_t *c, const uint8_t *l,
                      const unicode_bidi_paragraph *p, size_t start, size_t end) {
    static uint8_t levels[4 * MOST];
    static unicode_bidi_run runs[4 * MOST];
    static size_t order[4 * MOST];
    static uint32_t out[4 * MOST];
    size_t len = end - start, characters;
    int64_t some = unicode_bidi_line_runs(c, n, l, n, p, start, end, runs, len), map = line_map(e, in, n, c, n, l, n, p, start, end, order, len);
    if (unicode_bidi_line_levels(c, n, l, n, p, start, end, levels, len) != (int64_t)len || some < 0 || map < 0
        || reorder_line(e, in, n, c, n, l, n, p, start, end, out, len) != (int64_t)len)
        FAIL("%s: a line in %s", what, NAMES[e]);
    for (int wanted = 0; wanted < 16; wanted++)
        for (size_t more = 0; more < 2; more++) {
            shown_line s = shown_buffers(e, wanted & 1 ? len + more : 0, wanted & 2 ? some + more : 0, wanted & 4 ? map + more : 0, wanted & 8 ? len + more : 0, 0x77);
            characters = 99;
            if (show_line(e, in, n, c, n, l, n, p, start, end, &s, &characters) != some || characters != (size_t)map)
                FAIL("%s: show_line in %s, buffers %d", what, NAMES[e], wanted);
            if (s.levels_len && (memcmp(s.levels, levels, len) || !all_are(s.levels + len, more, 0x77))) FAIL("%s: shown levels in %s", what, NAMES[e]);
            for (size_t k = 0; s.runs_len && k < (size_t)some; k++)
                if (s.runs[k].start != runs[k].start || s.runs[k].end != runs[k].end || s.runs[k].level != runs[k].level) FAIL("%s: shown runs in %s", what, NAMES[e]);
            if (s.runs_len && !all_are(s.runs + some, more * sizeof *s.runs, 0x77)) FAIL("%s: shown runs in %s", what, NAMES[e]);
            if (s.order_len && (memcmp(s.order, order, map * sizeof *order) || !all_are(s.order + map, more * sizeof *order, 0x77))) FAIL("%s: shown order in %s", what, NAMES[e]);
            if (s.out_len && (memcmp(s.out, out, len * SIZES[e]) || !all_are((unsigned char *)s.out + len * SIZES[e], more * SIZES[e], 0x77))) FAIL("%s: shown text in %s", what, NAMES[e]);
            watch_shown(e, &s, what);
        }
    for (int part = 0; part < 4; part++) { /* one entry too few, where that is not none */
        size_t rooms[4] = {len, some, map, len};
        if (rooms[part] < 2) continue;
        rooms[part]--;
        shown_line s = shown_buffers(e, rooms[0], rooms[1], rooms[2], rooms[3], 0x77);
        characters = 99;
        if (show_line(e, in, n, c, n, l, n, p, start, end, &s, &characters) != UNICODE_BIDI_NO_ROOM) FAIL("%s: show_line in %s with little room", what, NAMES[e]);
        see_unwritten(e, &s, characters, 0x77, what);
    }
}

/* The same call with each of its requests for memory refused in turn. */
static long see_shown_refused(int e, const void *in, size_t n, const uint8_t *c, const uint8_t *l, const unicode_bidi_paragraph *p, size_t start, size_t end) {
    for (long k = 0;; k++) {
        shown_line s = shown_buffers(e, n, n, n, n, 0x77);
        size_t characters = 99;
        until_refusal = k, was_refused = false;
        int64_t found = show_line(e, in, n, c, n, l, n, p, start, end, &s, &characters);
        until_refusal = -1;
        if (!was_refused) return k;
        if (found != UNICODE_BIDI_NO_MEMORY) FAIL("show_line: request %ld refused: %lld", k, (long long)found);
        see_unwritten(e, &s, characters, 0x77, "request refused");
    }
}

/* ---- a line as it is displayed, in one call ---- */

/* Buffers of so many entries, each byte with this value. */
static displayed_line displayed_buffers(int e, size_t out, size_t order, size_t places, unsigned char value) {
    return (displayed_line){out, order, places, buffer(out_at, out * SIZES[e], value), buffer(order_at, order * sizeof(size_t), value), buffer(places_at, places * sizeof(size_t), value)};
}

static void watch_displayed(int e, const displayed_line *d, const char *what) {
    watch(out_at, d->out_len * SIZES[e], what), watch(order_at, d->order_len * sizeof *d->order, what), watch(places_at, d->places_len * sizeof *d->places, what);
}

/* A call that tells a fault has written nothing. */
static void see_undisplayed(int e, const displayed_line *d, size_t shown, size_t characters, const char *what) {
    if (!all_are(d->out, d->out_len * SIZES[e], 0x77) || !all_are(d->order, d->order_len * sizeof *d->order, 0x77)
        || !all_are(d->places, d->places_len * sizeof *d->places, 0x77) || shown != 99 || characters != 99)
        FAIL("%s in %s: a fault of display_line that wrote", what, NAMES[e]);
}

/* The character that is displayed for another at a level. */
static uint32_t displayed_char(uint32_t c, uint8_t level, uint32_t flags) {
    if (c - 0xD800 < 0x800) c = 0xFFFD;
    return flags & UNICODE_BIDI_MIRROR && level & 1 ? (uint32_t)unicode_bidi_mirrored(c) : c;
}

static uint32_t flags_of(const row *r) {
    const char *moves = get(r, "moves"), *dropped = get(r, "dropped");
    return (!moves || !strcmp(moves, "clusters") ? UNICODE_BIDI_MOVE_CLUSTERS : !strcmp(moves, "marks") ? UNICODE_BIDI_MOVE_MARKS : UNICODE_BIDI_MOVE_CHARACTERS)
        + (!dropped || !strcmp(dropped, "controls") ? UNICODE_BIDI_DROP_CONTROLS : !strcmp(dropped, "neutrals") ? UNICODE_BIDI_DROP_BOUNDARY_NEUTRALS : 0);
}

/* A displayed line of characters from a up to b: its maps agree with each other and with its text. With each choice of buffers the call
 * writes the same, and too little room in any of them is a fault. If `wanted` is no null, it is the displayed text, and the other way
 * round `found` is told the order. Returns the number of displayed characters. */
static size_t see_displayed(const char *what, int e, const text *t, const void *in, const uint8_t *c, const uint8_t *l, const unicode_bidi_paragraph *p,
                            size_t a, size_t b, uint32_t flags, const text *wanted, size_t *found) {
    static unsigned char out[8 * MOST];
    static size_t order[MOST], places[MOST];
    static uint8_t after_l1[4 * MOST];
    size_t n = t->units[e], start = t->at[e][a], end = t->at[e][b], len = end - start, shown = 99, characters = 99;
    displayed_line d = displayed_buffers(e, 2 * len, b - a, b - a, 0x77);
    int64_t units = display_line(e, in, n, c, n, l, n, p, start, end, flags, &d, &shown, &characters);
    if (units < 0 || characters != b - a || shown > characters) FAIL("%s: display_line in %s: %lld", what, NAMES[e], (long long)units);
    if (!all_are((unsigned char *)d.out + units * SIZES[e], (d.out_len - units) * SIZES[e], 0x77) || !all_are(d.order + shown, (d.order_len - shown) * sizeof *d.order, 0x77))
        FAIL("%s: display_line in %s wrote past its result", what, NAMES[e]);
    memcpy(out, d.out, units * SIZES[e]), memcpy(order, d.order, shown * sizeof *order), memcpy(places, d.places, characters * sizeof *places);
    if (unicode_bidi_line_levels(c, n, l, n, p, start, end, after_l1, len) != (int64_t)len) FAIL("%s: levels", what);
    size_t dropped = 0;
    for (size_t j = 0; j < characters; j++) dropped += places[j] == UNICODE_BIDI_NOWHERE;
    if (dropped + shown != characters) FAIL("%s: %zu places in %s", what, characters - dropped, NAMES[e]);
    text from_map;
    memset(&from_map, 0, sizeof from_map);
    for (size_t i = 0; i < shown; i++) {
        if (order[i] >= characters || places[order[i]] != i) FAIL("%s: the maps in %s", what, NAMES[e]);
        size_t k = a + order[i];
        push(&from_map, displayed_char(t->chars[k], after_l1[t->at[e][k] - start], flags));
    }
    if (from_map.units[e] != (size_t)units || memcmp(from_map.in[e], out, units * SIZES[e])) FAIL("%s: a displayed text in %s", what, NAMES[e]);
    if (wanted && (wanted->units[e] != (size_t)units || memcmp(wanted->in[e], out, units * SIZES[e]))) FAIL("%s: another displayed text in %s", what, NAMES[e]);
    for (int chosen = 0; chosen < 8; chosen++)
        for (size_t more = 0; more < 2; more++) {
            d = displayed_buffers(e, chosen & 1 ? units + more : 0, chosen & 2 ? shown + more : 0, chosen & 4 ? characters + more : 0, 0x77);
            size_t again = 99, all = 99;
            if (display_line(e, in, n, c, n, l, n, p, start, end, flags, &d, &again, &all) != units || again != shown || all != characters) FAIL("%s: display_line in %s, buffers %d", what, NAMES[e], chosen);
            if (d.out_len && (memcmp(d.out, out, units * SIZES[e]) || !all_are((unsigned char *)d.out + units * SIZES[e], more * SIZES[e], 0x77))) FAIL("%s: displayed text in %s", what, NAMES[e]);
            if (d.order_len && (memcmp(d.order, order, shown * sizeof *order) || !all_are(d.order + shown, more * sizeof *order, 0x77))) FAIL("%s: displayed order in %s", what, NAMES[e]);
            if (d.places_len && (memcmp(d.places, places, characters * sizeof *places) || !all_are(d.places + characters, more * sizeof *places, 0x77))) FAIL("%s: places in %s", what, NAMES[e]);
            watch_displayed(e, &d, what);
        }
    for (int part = 0; part < 3; part++) { /* one entry too few, where that is not none */
        size_t rooms[3] = {units, shown, characters};
        if (rooms[part] < 2) continue;
        rooms[part]--;
        d = displayed_buffers(e, rooms[0], rooms[1], rooms[2], 0x77);
        size_t again = 99, all = 99;
        if (display_line(e, in, n, c, n, l, n, p, start, end, flags, &d, &again, &all) != UNICODE_BIDI_NO_ROOM) FAIL("%s: display_line in %s with little room", what, NAMES[e]);
        see_undisplayed(e, &d, again, all, what);
    }
    if (found) memcpy(found, order, shown * sizeof *order);
    return shown;
}

/* The same call with each of its requests for memory refused in turn. */
static long see_displayed_refused(int e, const void *in, size_t n, const uint8_t *c, const uint8_t *l, const unicode_bidi_paragraph *p, uint32_t flags) {
    for (long k = 0;; k++) {
        displayed_line d = displayed_buffers(e, 2 * n, n, n, 0x77);
        size_t shown = 99, characters = 99;
        until_refusal = k, was_refused = false;
        int64_t found = display_line(e, in, n, c, n, l, n, p, 0, n, flags, &d, &shown, &characters);
        until_refusal = -1;
        if (!was_refused) return k;
        if (found != UNICODE_BIDI_NO_MEMORY) FAIL("display_line: request %ld refused: %lld", k, (long long)found);
        see_undisplayed(e, &d, shown, characters, "request refused");
    }
}

static long displayed_seen;

static void try_displayed(const row *r) {
    static text t, wanted;
    if (strcmp(r->kind, "displayed line") || !get(r, "shown")) return;
    if (!read_text(r, "text", &t)) { left_out++; return; }
    if (!read_text(r, "shown", &wanted)) memset(&wanted, 0, sizeof wanted);
    displayed_seen++;
    size_t a = 0, b = t.len;
    if (get(r, "line") && sscanf(get(r, "line"), "%zu..%zu", &a, &b) != 2) BAD_ROW(r, "a line");
    for (int e = UTF8; e <= UTF32; e++) {
        if (t.is_utf16_alone && e != UTF16) continue;
        size_t n = t.units[e];
        const void *in = copied(texts, t.in[e], n * SIZES[e]);
        uint8_t *c = buffer(classes_at, n, 99), *l = buffer(levels_at, n, 99);
        unicode_bidi_paragraph p;
        if (analyse(e, false, in, n, base_of(r), WHOLE, c, n, l, n, &p, 1) != 1) BAD_ROW(r, "a paragraph");
        see_displayed(r->name, e, &t, in, c, l, &p, a, b, flags_of(r) + UNICODE_BIDI_MIRROR, &wanted, NULL);
    }
}

static void try_line(const row *r) {
    if (strcmp(r->kind, "line")) return;
    static text t, shown;
    if (!read_text(r, "text", &t)) { left_out++; return; }
    now = source_of(r);
    lines_seen++;
    size_t a = 0, b = t.len;
    if (get(r, "line") && sscanf(get(r, "line"), "%zu..%zu", &a, &b) != 2) BAD_ROW(r, "a line");
    for (int e = UTF8; e <= UTF32; e++) {
        if (t.is_utf16_alone && e != UTF16) continue;
        size_t n = t.units[e], start = place_of(r, &t, e, a), end = place_of(r, &t, e, b), len = end - start;
        static uint8_t c[4 * MOST], l[4 * MOST], all[4 * MOST];
        static unicode_bidi_paragraph p[MOST];
        if (analyse(e, true, t.in[e], n, base_of(r), SPLIT, c, n, l, n, p, MOST) < 1) BAD_ROW(r, "no paragraph");
        if (get(r, "paragraph")) p->level = atoi(get(r, "paragraph"));
        see_field(r, "levels", e, &t, l, NULL);
        memcpy(all, l, n);
        uint8_t *after = buffer(levels_at, len, 99);
        if (unicode_bidi_line_levels(c, n, l, n, p, start, end, after, len) != (int64_t)len) BAD_ROW(r, "its levels");
        memcpy(all + start, after, len);
        see_field(r, "after", e, &t, all, NULL);
        unicode_bidi_run *runs = buffer(rows_at, len * sizeof *runs, 0);
        int64_t count = unicode_bidi_line_runs(c, n, l, n, p, start, end, runs, len);
        if (unicode_bidi_line_runs(c, n, l, n, p, start, end, runs, 0) != count) BAD_ROW(r, "its runs counted");
        see_runs(r, e, &t, runs, count, all);
        if (!read_text(r, "shown", &shown)) continue;
        void *out = buffer(out_at, len * SIZES[e], 0);
        int64_t written = reorder_line(e, t.in[e], n, c, n, l, n, p, start, end, out, len);
        if (written != (int64_t)shown.units[e] || memcmp(out, shown.in[e], written * SIZES[e])) BAD_ROW(r, "%s: its text", NAMES[e]);
        size_t *order = buffer(order_at, (b - a) * sizeof *order, 0);
        if (line_map(e, t.in[e], n, c, n, l, n, p, start, end, order, b - a) != (int64_t)(b - a)) BAD_ROW(r, "its map");
        for (size_t v = 0; v < b - a && !t.is_utf16_alone; v++)
            if (order[v] >= b - a || t.chars[a + order[v]] != shown.chars[v]) BAD_ROW(r, "%s: place %zu", NAMES[e], v);
        see_shown(r->name, e, t.in[e], n, c, l, p, start, end);
    }
}

static void try_order(const row *r) {
    if (strcmp(r->kind, "order")) return;
    static list levels, wanted;
    if (!words(r, "levels", &levels) || !words(r, "order", &wanted) || wanted.count != levels.count) BAD_ROW(r, "an order");
    orders_seen++;
    uint8_t l[ITEMS];
    size_t order[ITEMS];
    for (size_t i = 0; i < levels.count; i++) l[i] = atoi(levels.items[i]);
    if (unicode_bidi_reorder_visual(l, levels.count, order, levels.count) != (int64_t)levels.count) BAD_ROW(r, "its length");
    for (size_t i = 0; i < levels.count; i++)
        if (order[i] != strtoul(wanted.items[i], NULL, 10)) BAD_ROW(r, "place %zu", i);
}

static int direction_of(const row *r, const char *key) {
    const char *word = get(r, key);
    if (word && !strcmp(word, "ltr")) return UNICODE_BIDI_LTR;
    if (word && !strcmp(word, "rtl")) return UNICODE_BIDI_RTL;
    if (word && !strcmp(word, "mixed")) return UNICODE_BIDI_MIXED;
    BAD_ROW(r, "no direction");
}

/* ---- characters ---- */

static void expect(const char *what, int64_t found, int64_t wanted) {
    if (found != wanted) FAIL("%s: %lld and not %lld", what, (long long)found, (long long)wanted);
}

static int64_t classes_of(int e, const void *text, size_t n, uint8_t *classes, size_t room) {
    return BY_ENCODING(e, classes, text, n, classes, room);
}

static int64_t brackets_of(int e, const void *text, size_t n, uint32_t *brackets, size_t room) {
    return BY_ENCODING(e, brackets, text, n, brackets, room);
}

/* The number of the bracket that words of a row name, from the word *at on: none, or opens or closes with a character. */
static uint32_t bracket_from(const row *r, const list *l, size_t *at) {
    const char *kind = *at < l->count ? l->items[(*at)++] : "";
    if (!strcmp(kind, "none")) return 0;
    bool opens = !strcmp(kind, "opens");
    if ((!opens && strcmp(kind, "closes")) || *at == l->count) BAD_ROW(r, "a bracket");
    return code_of(r, l->items[(*at)++]) + (opens ? UNICODE_BIDI_OPENING : 0);
}

/* The numbers of brackets of a row's field, one a character. Whether the row has it. */
static bool read_brackets(const row *r, const char *key, uint32_t *brackets, size_t count) {
    static list l;
    if (!words(r, key, &l)) return false;
    size_t at = 0;
    for (size_t k = 0; k < count; k++) brackets[k] = bracket_from(r, &l, &at);
    if (at != l.count) BAD_ROW(r, "more brackets than characters");
    return true;
}

/* Each call over a text has for each unit what the call over a character has. */
static void see_characters(const char *what, const text *t) {
    for (int e = UTF8; e <= UTF32; e++) {
        if (t->is_utf16_alone && e != UTF16) continue;
        size_t n = t->units[e];
        const void *in = copied(texts, t->in[e], n * SIZES[e]);
        for (size_t more = 0; more < 2; more++) {
            uint8_t *c = buffer(classes_at, n + more, 0x77);
            uint32_t *b = buffer(out_at, (n + more) * sizeof *b, 0x77);
            if (classes_of(e, in, n, c, n + more) != (int64_t)n || brackets_of(e, in, n, b, n + more) != (int64_t)n)
                FAIL("%s: characters in %s", what, NAMES[e]);
            for (size_t k = 0; k < t->len; k++) {
                uint32_t character = t->chars[k] - 0xD800 < 0x800 ? 0xFFFD : t->chars[k];
                for (size_t u = t->at[e][k]; u < t->at[e][k + 1]; u++)
                    if (c[u] != unicode_bidi_class_of(character) || b[u] != unicode_bidi_bracket_of(character))
                        FAIL("%s: character %zu in %s", what, k, NAMES[e]);
            }
            if (!all_are(c + n, more, 0x77) || !all_are(b + n, more * sizeof *b, 0x77)) FAIL("%s: past the characters in %s", what, NAMES[e]);
            watch(classes_at, n + more, what), watch(out_at, (n + more) * sizeof *b, what);
        }
        if (!n) continue;
        uint8_t *c = buffer(classes_at, n - 1, 0x77);
        uint32_t *b = buffer(out_at, (n - 1) * sizeof *b, 0x77);
        if (classes_of(e, in, n, c, n - 1) != UNICODE_BIDI_NO_ROOM || brackets_of(e, in, n, b, n - 1) != UNICODE_BIDI_NO_ROOM)
            FAIL("%s: characters in %s with little room", what, NAMES[e]);
        if (!all_are(c, n - 1, 0x77) || !all_are(b, (n - 1) * sizeof *b, 0x77)) FAIL("%s: a fault of %s that wrote", what, NAMES[e]);
        watch(classes_at, n - 1, what), watch(out_at, (n - 1) * sizeof *b, what);
    }
}

static void try_character(const row *r) {
    if (!strcmp(r->kind, "character of Unicode")) {
        uint32_t c = code_of(r, get(r, "character")), bracket;
        characters_seen++;
        if (get(r, "class") && unicode_bidi_class_of(c) != class_of(r, get(r, "class"))) BAD_ROW(r, "its class");
        if (read_brackets(r, "bracket", &bracket, 1) && unicode_bidi_bracket_of(c) != bracket) BAD_ROW(r, "its bracket");
        const char *partner = get(r, "mirrored");
        if (partner && unicode_bidi_mirrored(c) != (strcmp(partner, "none") ? code_of(r, partner) : c)) BAD_ROW(r, "its mirrored partner");
        text one;
        memset(&one, 0, sizeof one);
        push(&one, c);
        see_characters(r->name, &one);
    } else if (!strcmp(r->kind, "characters of Unicode")) {
        static text t;
        if (!read_text(r, "text", &t)) BAD_ROW(r, "a long text");
        characters_seen++;
        uint32_t brackets[MOST];
        bool has_brackets = read_brackets(r, "brackets", brackets, t.len);
        for (int e = UTF8; e <= UTF32; e++) {
            size_t n = t.units[e];
            uint8_t *c = buffer(classes_at, n, 99);
            uint32_t *b = buffer(out_at, n * sizeof *b, 0);
            if (classes_of(e, t.in[e], n, c, n) != (int64_t)n || brackets_of(e, t.in[e], n, b, n) != (int64_t)n) BAD_ROW(r, "its length");
            see_field(r, "classes", e, &t, c, CLASSES);
            for (size_t k = 0; has_brackets && k < t.len; k++)
                for (size_t u = t.at[e][k]; u < t.at[e][k + 1]; u++)
                    if (b[u] != brackets[k]) BAD_ROW(r, "%s: the bracket %zu", NAMES[e], k);
        }
        see_characters(r->name, &t);
    }
}

/* The calls over characters: faults, a surrogate in no pair, and no request for memory. */
static void try_characters(void) {
    static const uint32_t none[] = {0xD800, 0xDFFF, 0x110000, UINT32_MAX}, scalars[] = {0, 0xD7FF, 0xE000, 0x10FFFF};
    static const uint8_t broken[] = {'a', 0xD7}, bad[] = {0, 22, 23};
    uint8_t c[3] = {99, 99, 99};
    uint32_t b[3] = {99, 99, 99};
    for (size_t i = 0; i < COUNT(none); i++) {
        const uint32_t two[] = {'a', none[i]};
        expect("the class of no scalar value", unicode_bidi_class_of(none[i]), UNICODE_BIDI_NOT_SCALAR);
        expect("the bracket of no scalar value", unicode_bidi_bracket_of(none[i]), UNICODE_BIDI_NOT_SCALAR);
        expect("the partner of no scalar value", unicode_bidi_mirrored(none[i]), UNICODE_BIDI_NOT_SCALAR);
        expect("classes of no scalar value", unicode_bidi_classes_utf32(two, 2, c, 3), UNICODE_BIDI_NOT_SCALAR);
        expect("brackets of no scalar value", unicode_bidi_brackets_utf32(two, 2, b, 3), UNICODE_BIDI_NOT_SCALAR);
        expect("no scalar value before no room", unicode_bidi_classes_utf32(two, 2, c, 1), UNICODE_BIDI_NOT_SCALAR);
        expect("no scalar value before no room", unicode_bidi_brackets_utf32(two, 2, b, 1), UNICODE_BIDI_NOT_SCALAR);
    }
    for (size_t i = 0; i < COUNT(scalars); i++)
        if (unicode_bidi_class_of(scalars[i]) < 0 || unicode_bidi_bracket_of(scalars[i]) != 0 || unicode_bidi_mirrored(scalars[i]) != scalars[i])
            FAIL("the scalar value %x", scalars[i]);
    expect("classes of what is not UTF-8", unicode_bidi_classes_utf8(broken, 2, c, 3), UNICODE_BIDI_NOT_UTF8);
    expect("brackets of what is not UTF-8", unicode_bidi_brackets_utf8(broken, 2, b, 3), UNICODE_BIDI_NOT_UTF8);
    expect("no UTF-8 before no room", unicode_bidi_classes_utf8(broken, 2, c, 1), UNICODE_BIDI_NOT_UTF8);
    expect("no UTF-8 before no room", unicode_bidi_brackets_utf8(broken, 2, b, 1), UNICODE_BIDI_NOT_UTF8);
    for (size_t i = 0; i < 3; i++)
        if (c[i] != 99 || b[i] != 99) FAIL("a fault in characters that wrote");
    for (uint8_t full = 0; full < 2; full++) {
        expect("a class above 22", unicode_bidi_base_direction_of_classes(bad, 3, full), UNICODE_BIDI_BAD_CLASS);
        expect("no class", unicode_bidi_base_direction_of_classes(bad, 0, full), UNICODE_BIDI_MIXED);
    }
    static text t;
    memset(&t, 0, sizeof t);
    static const uint32_t lone[] = {'(', 0xD800, 0x5D0, 0xDC00, ')', 0x1F600, 0xDBFF};
    for (size_t i = 0; i < COUNT(lone); i++) push(&t, lone[i]);
    t.is_utf16_alone = true;
    until_refusal = 0, was_refused = false;
    see_characters("a surrogate in no pair", &t);
    read_utf8(&t, u8"a(\u05D0)\u2329\u232A\u0F3A\U0001F600 1\u2068\u0661\u2069\n");
    see_characters("some characters", &t);
    if (unicode_bidi_base_direction_of_classes(bad, 2, 1) != UNICODE_BIDI_LTR || was_refused) FAIL("a call over characters asks for memory");
    until_refusal = -1;
}

/* The characters of these rows have the same classes in the sample as in Unicode's data. */
static void try_direction(const row *r) {
    if (strcmp(r->kind, "base direction")) return;
    static text t;
    if (!read_text(r, "text", &t)) { left_out++; return; }
    now = source_of(r);
    for (int e = UTF8; e <= UTF32; e++)
        for (int tables = 0; tables < 2; tables++)
            if (direction(e, tables, t.in[e], t.units[e], 0) != direction_of(r, "first") || direction(e, tables, t.in[e], t.units[e], 1) != direction_of(r, "full"))
                BAD_ROW(r, "%s, %s", NAMES[e], tables ? "by tables" : "by Unicode's data");
    for (int e = UTF8; e <= UTF32; e++)
        if (first_direction(e, t.in[e], t.units[e], 0) != direction_of(r, "first") || first_direction(e, t.in[e], t.units[e], 1) != direction_of(r, "full"))
            BAD_ROW(r, "%s, read no further than it is decided", NAMES[e]);
    uint8_t c[MOST];
    if (unicode_bidi_classes_utf32((const uint32_t *)t.in[UTF32], t.len, c, MOST) != (int64_t)t.len
        || unicode_bidi_base_direction_of_classes(c, t.len, 0) != direction_of(r, "first") || unicode_bidi_base_direction_of_classes(c, t.len, 1) != direction_of(r, "full"))
        BAD_ROW(r, "by its classes");
}

/* Each call once, by Unicode's own data, and by a table of one range and no brackets. */
static void try_each_call(void) {
    static const uint8_t levels[] = {0, 0, 1, 1, 0};
    static const size_t order[] = {0, 1, 3, 2, 4};
    static const unicode_bidi_class_range hebrew[] = {{0x5D0, 0x5EA, UNICODE_BIDI_R}};
    text t, shown;
    read_utf8(&t, u8"a \u05D0\u05D1 "), read_utf8(&shown, u8"a \u05D1\u05D0 ");
    uint8_t c[8], l[8], after[8];
    unicode_bidi_paragraph p[1];
    for (int e = UTF8; e <= UTF32; e++) {
        size_t n = t.units[e], found[5];
        if (analyse(e, false, t.in[e], n, AUTO, SPLIT, c, n, l, n, p, 1) != 1) FAIL("one paragraph in %s", NAMES[e]);
        see("Unicode's classes", e, &t, "L WS R R WS", c, CLASSES);
        see("levels by Unicode's classes", e, &t, "0 0 1 1 0", l, NULL);
        if (p->start != 0 || p->end != n || p->level != 0) FAIL("the paragraph in %s", NAMES[e]);
        memset(after, 9, sizeof after);
        if (unicode_bidi_line_levels(c, n, l, n, p, 0, n, after, n + 1) != (int64_t)n || memcmp(after, l, n) || after[n] != 9)
            FAIL("levels of a line in %s", NAMES[e]);
        unicode_bidi_run r[3];
        if (unicode_bidi_line_runs(c, n, l, n, p, 0, n, r, 3) != 3 || r[1].start != t.at[e][2] || r[1].end != t.at[e][4] || r[1].level != 1)
            FAIL("runs of a line in %s", NAMES[e]);
        uint32_t out[8];
        if (reorder_line(e, t.in[e], n, c, n, l, n, p, 0, n, out, n) != (int64_t)n || memcmp(out, shown.in[e], n * SIZES[e]))
            FAIL("text of a line in %s", NAMES[e]);
        if (line_map(e, t.in[e], n, c, n, l, n, p, 0, n, found, 5) != 5 || memcmp(found, order, sizeof order)) FAIL("map of a line in %s", NAMES[e]);
        see_shown("each call", e, t.in[e], n, c, l, p, 0, n);
        see_shown("an empty line", e, t.in[e], n, c, l, p, t.at[e][2], t.at[e][2]);
    }
    size_t found[5];
    if (unicode_bidi_reorder_visual(levels, 5, found, 5) != 5 || memcmp(found, order, sizeof order)) FAIL("order of levels");
    if (unicode_bidi_analyse_by_tables_utf32(hebrew, 1, NULL, 0, (const uint32_t *)t.in[UTF32], 5, AUTO, WHOLE, c, 5, l, 5, p, 0) != 1)
        FAIL("a table of one range");
    see("classes by a table of one range", UTF32, &t, "L L R R L", c, CLASSES);
    see("levels by a table of one range", UTF32, &t, "0 0 1 1 0", l, NULL);
}

/* Classes alone: worked by hand, each fault, each two faults at once, and no request for memory. */
static void try_classes(void) {
    static const uint8_t given[] = {UNICODE_BIDI_L, UNICODE_BIDI_ON, UNICODE_BIDI_R, UNICODE_BIDI_ON, UNICODE_BIDI_R};
    static const uint32_t codes[] = {0, '(' + UNICODE_BIDI_OPENING, 0, '(', 0}, none[] = {0x1F, 0x80000, 0xD800, 0xDFFF, UNICODE_BIDI_OPENING, UNICODE_BIDI_OPENING + 0x1F, UINT32_MAX};
    static const uint32_t some[] = {0x20, 0x7FFFF, UNICODE_BIDI_OPENING + 0x20, UNICODE_BIDI_OPENING + 0x7FFFF, 0xD7FF, 0xE000};
    static const uint8_t paired[] = {0, 0, 1, 0, 1}, unpaired[] = {0, 0, 1, 1, 1}, bad[] = {0, 22, 23};
    uint8_t c[6] = {99, 99, 99, 99, 99, 99}, l[6] = {99, 99, 99, 99, 99, 99};
    unicode_bidi_paragraph p[2];
    expect("classes and brackets", unicode_bidi_analyse_classes(given, 5, codes, 5, AUTO, SPLIT, c, 6, l, 6, p, 2), 1);
    if (memcmp(c, given, 5) || memcmp(l, paired, 5) || c[5] != 99 || l[5] != 99 || p->start || p->end != 5 || p->level) FAIL("a pair by classes");
    expect("classes", unicode_bidi_analyse_classes(given, 5, codes, 0, AUTO, SPLIT, c, 5, l, 5, p, 2), 1);
    if (memcmp(l, unpaired, 5)) FAIL("no pair by classes");
    static const uint8_t crlf[] = {UNICODE_BIDI_B, UNICODE_BIDI_B};
    expect("no CR and LF", unicode_bidi_analyse_classes(crlf, 2, codes, 0, AUTO, TOGETHER, c, 5, l, 5, p, 2), 2);
    for (size_t i = 0; i < COUNT(some); i++) {
        const uint32_t one[] = {some[i], 0};
        expect("a bracket code", unicode_bidi_analyse_classes(given, 2, one, 2, AUTO, SPLIT, c, 5, l, 5, p, 2), 1);
    }
    memset(c, 0x77, 6), memset(l, 0x77, 6), memset(p, 0x77, sizeof p);
    for (size_t i = 0; i < COUNT(none); i++) {
        const uint32_t two[] = {0, none[i]};
        expect("no bracket code", unicode_bidi_analyse_classes(given, 2, two, 2, AUTO, SPLIT, c, 6, l, 6, p, 2), UNICODE_BIDI_BAD_BRACKET);
        expect("a class above 22", unicode_bidi_analyse_classes(bad + 1, 2, two, 2, AUTO, SPLIT, c, 6, l, 6, p, 2), UNICODE_BIDI_BAD_CLASS);
        expect("lengths", unicode_bidi_analyse_classes(bad, 3, two, 2, AUTO, SPLIT, c, 6, l, 6, p, 2), UNICODE_BIDI_UNEQUAL_LENGTHS);
        expect("lengths", unicode_bidi_analyse_classes(bad, 0, two, 1, AUTO, SPLIT, c, 6, l, 6, p, 2), UNICODE_BIDI_UNEQUAL_LENGTHS);
        expect("no bracket code", unicode_bidi_analyse_classes(given, 2, two, 2, 126, 3, c, 1, l, 1, p, 2), UNICODE_BIDI_BAD_BRACKET);
    }
    expect("base level", unicode_bidi_analyse_classes(given, 5, codes, 5, 126, 3, c, 4, l, 4, p, 2), UNICODE_BIDI_BAD_BASE_LEVEL);
    expect("split rule", unicode_bidi_analyse_classes(given, 5, codes, 5, AUTO, 3, c, 4, l, 4, p, 2), UNICODE_BIDI_BAD_SPLIT);
    expect("room for classes", unicode_bidi_analyse_classes(given, 5, codes, 5, AUTO, SPLIT, c, 4, l, 5, p, 2), UNICODE_BIDI_NO_ROOM);
    expect("room for levels", unicode_bidi_analyse_classes(given, 5, codes, 5, AUTO, SPLIT, c, 5, l, 4, p, 2), UNICODE_BIDI_NO_ROOM);
    expect("room for paragraphs", unicode_bidi_analyse_classes(crlf, 2, codes, 0, AUTO, SPLIT, c, 5, l, 5, p, 1), UNICODE_BIDI_NO_ROOM);
    if (!all_are(c, 6, 0x77) || !all_are(l, 6, 0x77) || !all_are(p, sizeof p, 0x77)) FAIL("a fault in classes that wrote");
    uint8_t many[256], stored[256], levels[256];
    for (size_t i = 0; i < 256; i++) many[i] = i % 2 ? UNICODE_BIDI_R : UNICODE_BIDI_AN;
    until_refusal = 0, was_refused = false;
    expect("short classes", unicode_bidi_analyse_classes(many, 256, codes, 0, AUTO, WHOLE, stored, 256, levels, 256, p, 2), 1);
    if (was_refused) FAIL("classes take memory");
    until_refusal = -1;
}

/* The names of classes, and of numbers that have none. tests/names compares all names. */
static void try_names(void) {
    for (int k = -1; k <= 23; k++)
        if (strcmp(unicode_bidi_class_name(k), 0 <= k && k < 23 ? CLASSES[k] : "?")) FAIL("the name of the class %d", k);
    if (strcmp(unicode_bidi_fault_name(UNICODE_BIDI_NOT_UTF8), "NOT_UTF8") || strcmp(unicode_bidi_fault_name(UNICODE_BIDI_BAD_BRACKET), "BAD_BRACKET")) FAIL("the name of a fault");
    if (strcmp(unicode_bidi_fault_name(0), "UNKNOWN_FAULT") || strcmp(unicode_bidi_fault_name(UNICODE_BIDI_BAD_FLAGS - 1), "UNKNOWN_FAULT") || strcmp(unicode_bidi_fault_name(INT64_MIN), "UNKNOWN_FAULT")) FAIL("the name of no fault");
}

/* The versions that the header names are those of the library. */
static void try_versions(void) {
    expect("version", unicode_bidi_version(), UNICODE_BIDI_VERSION);
    expect("version of Unicode", unicode_bidi_unicode_version(), UNICODE_BIDI_UNICODE_VERSION);
}

/* The calls that stop where the direction is decided: faults before and behind that, and texts of every length. */
static void try_first_direction(void) {
    static const uint8_t behind[] = {' ', 0xD7, 0x90, 0xFF}, before[] = {' ', 0xFF, 0xD7, 0x90}, cut[] = {'1', ' ', 0xD7};
    static const uint8_t inside[] = {0xE2, 0x81, 0xA6, 'a', 0xE2, 0x81, 0xA9, 0xC0}, ended[] = {' ', '\n', 0xFF};
    static const uint32_t behind32[] = {' ', 0x5D0, 0x110000}, before32[] = {' ', 0xD800, 0x5D0}, ended32[] = {' ', 0x2029, 0xDFFF};
    static const uint16_t lone[] = {' ', 0xD800, 0x5D0};
    expect("a fault behind", unicode_bidi_first_direction_utf8(behind, 4, 0), UNICODE_BIDI_RTL);
    expect("a fault before", unicode_bidi_first_direction_utf8(before, 4, 0), UNICODE_BIDI_NOT_UTF8);
    expect("a cut character", unicode_bidi_first_direction_utf8(cut, 3, 1), UNICODE_BIDI_NOT_UTF8);
    expect("a fault behind an isolate", unicode_bidi_first_direction_utf8(inside, 8, 0), UNICODE_BIDI_NOT_UTF8);
    expect("a fault behind a separator", unicode_bidi_first_direction_utf8(ended, 3, 0), UNICODE_BIDI_MIXED);
    expect("a fault behind a separator, in full", unicode_bidi_first_direction_utf8(ended, 3, 1), UNICODE_BIDI_NOT_UTF8);
    expect("no scalar value behind", unicode_bidi_first_direction_utf32(behind32, 3, 0), UNICODE_BIDI_RTL);
    expect("no scalar value before", unicode_bidi_first_direction_utf32(before32, 3, 0), UNICODE_BIDI_NOT_SCALAR);
    expect("no scalar value behind a separator", unicode_bidi_first_direction_utf32(ended32, 3, 0), UNICODE_BIDI_MIXED);
    expect("no scalar value behind a separator, in full", unicode_bidi_first_direction_utf32(ended32, 3, 1), UNICODE_BIDI_NOT_SCALAR);
    expect("a lone surrogate", unicode_bidi_first_direction_utf16(lone, 3, 0), UNICODE_BIDI_RTL);
    for (uint8_t full = 0; full < 2; full++) {
        expect("an empty text", unicode_bidi_first_direction_utf8(behind, 0, full), UNICODE_BIDI_MIXED);
        expect("an empty text", unicode_bidi_first_direction_utf16(lone, 0, full), UNICODE_BIDI_MIXED);
        expect("an empty text", unicode_bidi_first_direction_utf32(behind32, 0, full), UNICODE_BIDI_MIXED);
    }
    /* Each length of the text before the deciding character, so that each character of the piece ends is cut once. */
    for (size_t n = 0; n < 300; n++)
        for (size_t width = 1; width <= 4; width++) {
            static const char *const neutral[] = {" ", "\u00B7", "\u3000", "\U00010101"};
            uint8_t bytes[2 + 300 * 4 + 2];
            size_t len = 0;
            for (size_t k = 0; k < n % 3; k++) bytes[len++] = '1';
            for (size_t k = 0; k < n; k++) memcpy(bytes + len, neutral[width - 1], width), len += width;
            uint8_t *in = copied(texts, bytes, len);
            expect("no character decides", unicode_bidi_first_direction_utf8(in, len, 0), UNICODE_BIDI_MIXED);
            if (width > 1 && n) expect("the last one is cut", unicode_bidi_first_direction_utf8(in, len - 1, 0), UNICODE_BIDI_NOT_UTF8);
            bytes[len] = 0xD8, bytes[len + 1] = 0xA7;
            in = copied(texts, bytes, len + 2);
            expect("the last one decides", unicode_bidi_first_direction_utf8(in, len + 2, 0), UNICODE_BIDI_RTL);
        }
}

/* Each fault, by a call in which nothing else is wrong. */
static void try_faults(void) {
    const uint8_t *hebrew = (const uint8_t *)u8"\u05D0 a";
    const uint8_t broken[] = {'a', 0xD7}, c[] = {1, 1, 12, 0}, l[] = {1, 1, 1, 2}, odd[] = {1, 0, 12, 0}, bad_class[] = {1, 1, 23, 0}, high[] = {1, 1, 127, 0};
    const uint16_t pair[] = {0xD800, 0xDC00};
    const uint32_t no_char[] = {0x61, 0x110000}, half[] = {0xD800, 0x61};
    const unicode_bidi_paragraph p = {0, 4, 1}, far = {0, 5, 1}, deep = {0, 4, 127}, two = {0, 2, 1};
    uint8_t out[4], more[4];
    uint16_t out16[2];
    uint32_t out32[2];
    size_t order[4];
    unicode_bidi_paragraph ps[2];
    unicode_bidi_run runs[1];
    expect("not UTF-8", unicode_bidi_analyse_utf8(broken, 2, AUTO, SPLIT, out, 4, more, 4, ps, 2), UNICODE_BIDI_NOT_UTF8);
    expect("direction of what is not UTF-8", unicode_bidi_base_direction_utf8(broken, 2, 0), UNICODE_BIDI_NOT_UTF8);
    expect("no scalar value", unicode_bidi_analyse_utf32(no_char, 2, AUTO, SPLIT, out, 4, more, 4, ps, 2), UNICODE_BIDI_NOT_SCALAR);
    expect("direction of no scalar value", unicode_bidi_base_direction_utf32(half, 2, 1), UNICODE_BIDI_NOT_SCALAR);
    for (int base = 0; base < 256; base++) {
        bool good = base < 126 || base == AUTO || base == UNICODE_BIDI_AUTO_LTR || base == UNICODE_BIDI_AUTO_RTL;
        expect("base level", unicode_bidi_analyse_utf8(hebrew, 4, base, SPLIT, out, 4, more, 4, ps, 2), good ? 1 : UNICODE_BIDI_BAD_BASE_LEVEL);
    }
    expect("split rule", unicode_bidi_analyse_utf8(hebrew, 4, AUTO, 3, out, 4, more, 4, ps, 2), UNICODE_BIDI_BAD_SPLIT);
    expect("room for classes", unicode_bidi_analyse_utf8(hebrew, 4, AUTO, SPLIT, out, 3, more, 4, ps, 2), UNICODE_BIDI_NO_ROOM);
    expect("room for levels", unicode_bidi_analyse_utf8(hebrew, 4, AUTO, SPLIT, out, 4, more, 3, ps, 2), UNICODE_BIDI_NO_ROOM);
    expect("room for paragraphs", unicode_bidi_analyse_utf8((const uint8_t *)"a\nb", 3, AUTO, SPLIT, out, 4, more, 4, ps, 1), UNICODE_BIDI_NO_ROOM);
    expect("lengths", unicode_bidi_line_levels(c, 3, l, 4, &p, 0, 4, out, 4), UNICODE_BIDI_UNEQUAL_LENGTHS);
    expect("length of a text", unicode_bidi_reorder_line_utf8(hebrew, 3, c, 4, l, 4, &p, 0, 4, out, 4), UNICODE_BIDI_UNEQUAL_LENGTHS);
    expect("length of a text of UTF-16", unicode_bidi_line_map_utf16(pair, 1, c, 2, l, 2, &two, 0, 2, order, 4), UNICODE_BIDI_UNEQUAL_LENGTHS);
    expect("length of a list", unicode_bidi_line_map_utf32(half, 1, c, 2, l, 2, &two, 0, 2, order, 4), UNICODE_BIDI_UNEQUAL_LENGTHS);
    expect("a reversed line", unicode_bidi_line_levels(c, 4, l, 4, &p, 3, 2, out, 4), UNICODE_BIDI_BAD_LINE);
    expect("a line past its paragraph", unicode_bidi_line_runs(c, 4, l, 4, &two, 0, 3, runs, 1), UNICODE_BIDI_BAD_LINE);
    expect("a paragraph past its text", unicode_bidi_line_levels(c, 4, l, 4, &far, 0, 2, out, 4), UNICODE_BIDI_BAD_LINE);
    expect("a line before its paragraph", unicode_bidi_line_levels(c, 4, l, 4, &(unicode_bidi_paragraph){2, 4, 0}, 0, 3, out, 4), UNICODE_BIDI_BAD_LINE);
    expect("class", unicode_bidi_line_levels(bad_class, 4, l, 4, &p, 0, 4, out, 4), UNICODE_BIDI_BAD_CLASS);
    expect("level", unicode_bidi_line_levels(c, 4, high, 4, &p, 0, 4, out, 4), UNICODE_BIDI_BAD_LEVEL);
    expect("level of a paragraph", unicode_bidi_line_levels(c, 4, l, 4, &deep, 0, 4, out, 4), UNICODE_BIDI_BAD_LEVEL);
    expect("level of an item", unicode_bidi_reorder_visual(high, 4, order, 4), UNICODE_BIDI_BAD_LEVEL);
    expect("room for levels of a line", unicode_bidi_line_levels(c, 4, l, 4, &p, 0, 4, out, 3), UNICODE_BIDI_NO_ROOM);
    expect("room for runs", unicode_bidi_line_runs(c, 4, l, 4, &p, 0, 4, runs, 1), UNICODE_BIDI_NO_ROOM);
    expect("room for an order", unicode_bidi_reorder_visual(l, 4, order, 3), UNICODE_BIDI_NO_ROOM);
    expect("room for a map", unicode_bidi_line_map_utf8(hebrew, 4, c, 4, l, 4, &p, 0, 4, order, 2), UNICODE_BIDI_NO_ROOM);
    expect("room for a text", unicode_bidi_reorder_line_utf8(hebrew, 4, c, 4, l, 4, &p, 0, 4, out, 3), UNICODE_BIDI_NO_ROOM);
    expect("room for UTF-16", unicode_bidi_reorder_line_utf16(pair, 2, c, 2, l, 2, &two, 0, 2, out16, 1), UNICODE_BIDI_NO_ROOM);
    expect("room for characters", unicode_bidi_reorder_line_utf32((const uint32_t[]){1, 2}, 2, c, 2, l, 2, &two, 0, 2, out32, 1), UNICODE_BIDI_NO_ROOM);
    expect("a cut character", unicode_bidi_reorder_line_utf8(hebrew, 4, c, 4, l, 4, &p, 1, 4, out, 4), UNICODE_BIDI_CUT_CHARACTER);
    expect("a cut character at the end", unicode_bidi_line_map_utf8(hebrew, 4, c, 4, l, 4, &p, 0, 1, order, 4), UNICODE_BIDI_CUT_CHARACTER);
    expect("a cut pair", unicode_bidi_line_map_utf16(pair, 2, c, 2, l, 2, &two, 1, 2, order, 4), UNICODE_BIDI_CUT_CHARACTER);
    expect("a line that is not UTF-8", unicode_bidi_reorder_line_utf8(broken, 2, c, 2, l, 2, &two, 0, 2, out, 4), UNICODE_BIDI_NOT_UTF8);
    expect("a line of no scalar value", unicode_bidi_reorder_line_utf32(half, 2, c, 2, l, 2, &two, 0, 2, out32, 2), UNICODE_BIDI_NOT_SCALAR);
    expect("an uneven character", unicode_bidi_reorder_line_utf8(hebrew, 4, odd, 4, l, 4, &p, 0, 4, out, 4), UNICODE_BIDI_UNEVEN_CHARACTER);
    expect("an uneven pair", unicode_bidi_reorder_line_utf16(pair, 2, c, 2, (const uint8_t[]){1, 2}, 2, &two, 0, 2, out16, 2), UNICODE_BIDI_UNEVEN_CHARACTER);
    const uint8_t two_levels[] = {1, 2};
    const struct { const char *what; int e; const void *in; size_t n; const uint8_t *c; size_t nc; const uint8_t *l; size_t nl; const unicode_bidi_paragraph *p; size_t start, end; int64_t wanted; } shown[] = {
        {"lengths", UTF8, hebrew, 4, c, 3, l, 4, &p, 0, 4, UNICODE_BIDI_UNEQUAL_LENGTHS},
        {"a reversed line", UTF8, hebrew, 4, c, 4, l, 4, &p, 3, 2, UNICODE_BIDI_BAD_LINE},
        {"a paragraph past its text", UTF8, hebrew, 4, c, 4, l, 4, &far, 0, 2, UNICODE_BIDI_BAD_LINE},
        {"class", UTF8, hebrew, 4, bad_class, 4, l, 4, &p, 0, 4, UNICODE_BIDI_BAD_CLASS},
        {"level", UTF8, hebrew, 4, c, 4, high, 4, &p, 0, 4, UNICODE_BIDI_BAD_LEVEL},
        {"level of a paragraph", UTF8, hebrew, 4, c, 4, l, 4, &deep, 0, 4, UNICODE_BIDI_BAD_LEVEL},
        {"length of a text", UTF8, hebrew, 3, c, 4, l, 4, &p, 0, 4, UNICODE_BIDI_UNEQUAL_LENGTHS},
        {"length of a text", UTF16, pair, 1, c, 2, l, 2, &two, 0, 2, UNICODE_BIDI_UNEQUAL_LENGTHS},
        {"length of a list", UTF32, half, 1, c, 2, l, 2, &two, 0, 2, UNICODE_BIDI_UNEQUAL_LENGTHS},
        {"a cut character", UTF8, hebrew, 4, c, 4, l, 4, &p, 1, 4, UNICODE_BIDI_CUT_CHARACTER},
        {"a cut character at the end", UTF8, hebrew, 4, c, 4, l, 4, &p, 0, 1, UNICODE_BIDI_CUT_CHARACTER},
        {"a cut pair", UTF16, pair, 2, c, 2, l, 2, &two, 0, 1, UNICODE_BIDI_CUT_CHARACTER},
        {"a line that is not UTF-8", UTF8, broken, 2, c, 2, l, 2, &two, 0, 2, UNICODE_BIDI_NOT_UTF8},
        {"a line of no scalar value", UTF32, half, 2, c, 2, l, 2, &two, 0, 2, UNICODE_BIDI_NOT_SCALAR},
        {"an uneven character", UTF8, hebrew, 4, odd, 4, l, 4, &p, 0, 4, UNICODE_BIDI_UNEVEN_CHARACTER},
        {"an uneven pair", UTF16, pair, 2, c, 2, two_levels, 2, &two, 0, 2, UNICODE_BIDI_UNEVEN_CHARACTER},
    };
    for (size_t i = 0; i < COUNT(shown); i++) {
        shown_line s = shown_buffers(shown[i].e, 1, 1, 1, 1, 0x77); /* too little room, which is tested last */
        size_t characters = 99;
        expect(shown[i].what, show_line(shown[i].e, shown[i].in, shown[i].n, shown[i].c, shown[i].nc, shown[i].l, shown[i].nl, shown[i].p, shown[i].start, shown[i].end, &s, &characters), shown[i].wanted);
        see_unwritten(shown[i].e, &s, characters, 0x77, shown[i].what);
        displayed_line d = displayed_buffers(shown[i].e, 1, 1, 1, 0x77);
        size_t displayed = 99;
        expect(shown[i].what, display_line(shown[i].e, shown[i].in, shown[i].n, shown[i].c, shown[i].nc, shown[i].l, shown[i].nl, shown[i].p, shown[i].start, shown[i].end, 3, &d, &displayed, &characters), shown[i].wanted);
        see_undisplayed(shown[i].e, &d, displayed, characters, shown[i].what);
    }
    static const uint32_t bad_flags[] = {3, 7, 11, 19, 23, 24, 25, 32, 64, 256, 1u << 31, UINT32_MAX};
    for (size_t i = 0; i < COUNT(bad_flags); i++) { /* also with too little room, which is tested last */
        displayed_line d = displayed_buffers(UTF8, 1, 1, 1, 0x77);
        size_t displayed = 99, characters = 99;
        expect("flags", display_line(UTF8, hebrew, 4, c, 4, l, 4, &p, 0, 4, bad_flags[i], &d, &displayed, &characters), UNICODE_BIDI_BAD_FLAGS);
        see_undisplayed(UTF8, &d, displayed, characters, "flags");
    }
    static const struct { unicode_bidi_class_range rows[2]; unicode_bidi_bracket_pair pair; int64_t wanted; } tables[] = {
        {{{'b', 'a', 0}, {'c', 'c', 0}}, {'(', ')', '('}, UNICODE_BIDI_BAD_RANGES},
        {{{'a', 'b', 0}, {'b', 'c', 0}}, {'(', ')', '('}, UNICODE_BIDI_BAD_RANGES},
        {{{'a', 'b', 0}, {'c', 'c', 23}}, {'(', ')', '('}, UNICODE_BIDI_BAD_CLASS},
        {{{0xDFFF, 0xDFFF, 0}, {0xE000, 0xE000, 0}}, {'(', ')', '('}, UNICODE_BIDI_NOT_SCALAR},
        {{{'a', 'b', 0}, {'c', 0x110000, 0}}, {'(', ')', '('}, UNICODE_BIDI_NOT_SCALAR},
        {{{'a', 'b', 0}, {'c', 'c', 0}}, {'(', ')', 0xD800}, UNICODE_BIDI_NOT_SCALAR},
        {{{'a', 'b', 0}, {'c', 'c', 0}}, {'(', ')', '('}, 1},
    };
    for (size_t i = 0; i < COUNT(tables); i++)
        expect("a table", unicode_bidi_analyse_by_tables_utf8(tables[i].rows, 2, &tables[i].pair, 1, hebrew, 4, AUTO, SPLIT, out, 4, more, 4, ps, 2), tables[i].wanted);
}

/* A call with each of its requests for memory refused in turn: it answers want of memory, and has left
 * its buffer, or what it answers unhindered. */
#define SWEEP(what, at, bytes, call)                                                               \
    do {                                                                                           \
        buffer(at, bytes, 0x77);                                                                   \
        int64_t unhindered = (call);                                                               \
        if (unhindered < 0) FAIL("%s: fault %lld", what, (long long)unhindered);                   \
        for (long k = 0;; k++) {                                                                   \
            unsigned char *b = buffer(at, bytes, 0x77);                                            \
            until_refusal = k, was_refused = false;                                                \
            int64_t found = (call);                                                                \
            until_refusal = -1;                                                                    \
            if (!was_refused) break;                                                               \
            if (found == unhindered) continue;                                                     \
            if (found != UNICODE_BIDI_NO_MEMORY) FAIL("%s: request %ld refused: %lld", what, k, (long long)found); \
            for (size_t i = 0; i < (bytes); i++)                                                   \
                if (b[i] != 0x77) FAIL("%s: request %ld refused, and written", what, k);           \
            refusals++;                                                                            \
        }                                                                                          \
    } while (0)

static long refusals;

/* The analysis of a short text without brackets and without characters that open, and the base direction: no request. */
static void try_short_texts(void) {
    text t;
    read_utf8(&t, u8"a\u05D0 12 \u0627b.");
    for (int e = UTF8; e <= UTF32; e++) {
        uint8_t c[4 * MOST], l[4 * MOST];
        unicode_bidi_paragraph p[1];
        size_t n = t.units[e];
        until_refusal = 0, was_refused = false;
        if (analyse(e, false, t.in[e], n, AUTO, SPLIT, c, n, l, n, p, 1) != 1 || was_refused) FAIL("a short text takes memory in %s", NAMES[e]);
        if (direction(e, false, t.in[e], n, 1) != UNICODE_BIDI_LTR || was_refused) FAIL("a base direction takes memory in %s", NAMES[e]);
        until_refusal = -1;
    }
}

static void try_refusals(void) {
    text t;
    read_utf8(&t, u8"a\u05D0 (\u05D1) 12\u202Bb\u202C\u2067c\u2068\u05D0\u2069\u2069 \u05D0a\u05D0a\u05D0a\u05D0a\u05D0a\u05D0a\u05D0a\u05D0a\u05D0\nb");
    for (int e = UTF8; e <= UTF32; e++) {
        size_t n = t.units[e];
        const void *in = t.in[e];
        uint8_t c[4 * MOST], l[4 * MOST];
        unicode_bidi_paragraph p[2];
        for (int tables = 0; tables < 2; tables++) {
            SWEEP("analyse", levels_at, n, analyse(e, tables, in, n, AUTO, SPLIT, c, n, levels_at.end - n, n, p, 2));
            SWEEP("base_direction", levels_at, n, direction(e, tables, in, n, 1));
        }
        until_refusal = 0, was_refused = false;
        if (first_direction(e, in, n, 1) != UNICODE_BIDI_LTR || was_refused) FAIL("first_direction asks for memory");
        until_refusal = -1;
        if (analyse(e, false, in, n, AUTO, SPLIT, c, n, l, n, p, 2) != 2) FAIL("two paragraphs");
        size_t end = p[0].end;
        size_t *order = (size_t *)order_at.end - n;
        SWEEP("line_levels", out_at, end, unicode_bidi_line_levels(c, n, l, n, p, 0, end, out_at.end - end, end));
        SWEEP("line_runs", rows_at, n * sizeof(unicode_bidi_run), unicode_bidi_line_runs(c, n, l, n, p, 0, end, (unicode_bidi_run *)rows_at.end - n, n));
        SWEEP("line_map", order_at, n * sizeof *order, line_map(e, in, n, c, n, l, n, p, 0, end, order, n));
        SWEEP("reorder_line", out_at, n * SIZES[e], reorder_line(e, in, n, c, n, l, n, p, 0, end, out_at.end - n * SIZES[e], n));
        uint8_t given[4 * MOST], stored[4 * MOST];
        unicode_bidi_paragraph pieces[4 * MOST];
        if (classes_of(e, in, n, given, n) != (int64_t)n) FAIL("classes in %s", NAMES[e]);
        SWEEP("analyse_classes", levels_at, n, unicode_bidi_analyse_classes(given, n, (const uint32_t *)out_at.end, 0, AUTO, SPLIT, stored, n, levels_at.end - n, n, pieces, n));
        SWEEP("reorder_visual", order_at, n * sizeof *order, unicode_bidi_reorder_visual(l, n, order, n));
        long shown = see_shown_refused(e, in, n, c, l, p, 0, end);
        if (!shown) FAIL("a line of many runs is shown without memory in %s", NAMES[e]);
        refusals += shown;
        if (see_shown_refused(e, in, n, c, l, p, 0, t.at[e][16])) FAIL("a line of few runs takes memory in %s", NAMES[e]);
        unicode_bidi_paragraph whole = {0, n, p[0].level};
        refusals += see_displayed_refused(e, in, n, c, l, &whole, UNICODE_BIDI_MOVE_CLUSTERS + UNICODE_BIDI_MIRROR);
    }
}

/* A line of more units than are kept without memory, and of few runs and of many. */
static void try_long_lines(void) {
    for (size_t piece = 1; piece < 100; piece += 49) {
        static text t;
        static uint8_t c[4 * MOST], l[4 * MOST];
        unicode_bidi_paragraph p[1];
        memset(&t, 0, sizeof t);
        while (t.len < 300) push(&t, t.len / piece % 2 ? 0x5D0 + t.len % 20 : t.len % 7 ? 'a' + t.len % 20 : 0x10000 + t.len);
        for (int e = UTF8; e <= UTF32; e++) {
            size_t n = t.units[e];
            if (analyse(e, false, t.in[e], n, AUTO, SPLIT, c, n, l, n, p, 1) != 1) FAIL("a long line in %s", NAMES[e]);
            see_shown("a long line", e, t.in[e], n, c, l, p, 0, n);
            see_displayed("a long line", e, &t, t.in[e], c, l, p, 0, t.len, UNICODE_BIDI_MOVE_CLUSTERS + UNICODE_BIDI_MIRROR, NULL, NULL);
            refusals += see_shown_refused(e, t.in[e], n, c, l, p, 0, n);
        }
    }
}

/* ---- random calls ---- */

static uint64_t state;

static uint64_t next(void) { /* xorshift */
    state ^= state << 13, state ^= state >> 7, state ^= state << 17;
    return state;
}

static size_t below(size_t n) { return next() % n; }

static const uint32_t PALETTE[] = {'a', 'b', '1', '2', ' ', '\t', '\n', '\r', '(', ')', '[', ']', '+', ',', '$', 0x5D0, 0x5D1, 0x5D2, 0x627, 0x628,
                                   0x660, 0x301, 0xAD, 0x2029, 0x202A, 0x202B, 0x202C, 0x202D, 0x202E, 0x2066, 0x2067, 0x2068, 0x2069,
                                   0x2329, 0x232A, 0x3008, 0x3009, 0x10000, 0x1F600, 0x10FFFF, 0xFFFD, 0x1E900};

static size_t near(size_t n) { /* n, or about it, or far off */
    switch (below(8)) {
    case 0: return n ? n - 1 : 0;
    case 1: return n + 1;
    case 2: return below(n + 3);
    default: return n;
    }
}

static size_t place(size_t n) { return below(40) ? below(n + 2) : SIZE_MAX - below(3); }

static void unchanged(int64_t answer, arena a, const void *before, size_t bytes, const char *what) {
    if (answer < 0 && bytes && memcmp(a.end - bytes, before, bytes)) FAIL("%s: a fault that wrote", what);
    if (answer < UNICODE_BIDI_BAD_FLAGS) FAIL("%s: the answer %lld", what, (long long)answer);
    if (answer == UNICODE_BIDI_NO_MEMORY) FAIL("%s: no memory", what);
    watch(a, bytes, what);
}

/* Any bytes, sizes and levels: the answer is a count or a fault, and nothing is written beside the buffers. */
static void call_at_random(void) {
    static unsigned char seed[4096];
    for (size_t i = 0; i < sizeof seed; i++) seed[i] = below(3) ? below(24) : next() >> 56;
    int e = below(3);
    size_t n = below(24), m = below(24);
    uint32_t some[24];
    for (size_t i = 0; i < 24; i++) some[i] = below(9) ? PALETTE[below(COUNT(PALETTE))] : (uint32_t)next() >> below(16);
    text t;
    memset(&t, 0, sizeof t);
    const void *in;
    if (below(4)) {
        while (t.len < m) {
            uint32_t c = PALETTE[below(COUNT(PALETTE))];
            push(&t, c);
        }
        m = t.units[e];
        in = copied(texts, t.in[e], m * SIZES[e]);
    } else
        in = copied(texts, e == UTF32 ? (void *)some : seed, m * SIZES[e]);
    n = below(3) ? m : n;
    size_t nc = near(n), nl = below(8) ? nc : near(n), np = near(below(4)), room = near(n);
    uint8_t *c = copied(classes_at, seed + 64, nc), *l = copied(levels_at, seed + 512, nl);
    unicode_bidi_paragraph p = {below(3) ? 0 : place(n), below(3) ? n : place(n), below(9) ? below(127) : next() >> 56};
    size_t start = place(n), end = place(n);
    if (start > end && below(8)) { size_t s = start; start = end, end = s; }
    uint8_t base = below(2) ? AUTO : below(8) ? below(126) : next() >> 56, split = below(9) ? below(3) : next() >> 56;
    int64_t answer;
    switch (below(10)) {
    case 0: case 1: {
        unicode_bidi_paragraph *ps = copied(rows_at, seed, np * sizeof p);
        answer = analyse(e, below(2), in, m, base, split, c, nc, l, nl, ps, np);
        unchanged(answer, classes_at, seed + 64, nc, "analyse"), unchanged(answer, levels_at, seed + 512, nl, "analyse");
        unchanged(answer, rows_at, seed, np * sizeof p, "analyse");
        break;
    }
    case 2:
        copied(out_at, seed, room);
        answer = unicode_bidi_line_levels(c, nc, l, nl, &p, start, end, out_at.end - room, room);
        unchanged(answer, out_at, seed, room, "line_levels");
        break;
    case 3: {
        unicode_bidi_run *r = copied(rows_at, seed, room * sizeof *r);
        answer = unicode_bidi_line_runs(c, nc, l, nl, &p, start, end, r, room);
        unchanged(answer, rows_at, seed, room * sizeof *r, "line_runs");
        break;
    }
    case 4: {
        size_t *order = copied(order_at, seed, room * sizeof *order);
        answer = line_map(e, in, m, c, nc, l, nl, &p, start, end, order, room);
        unchanged(answer, order_at, seed, room * sizeof *order, "line_map");
        break;
    }
    case 5:
        copied(out_at, seed, room * SIZES[e]);
        answer = reorder_line(e, in, m, c, nc, l, nl, &p, start, end, out_at.end - room * SIZES[e], room);
        unchanged(answer, out_at, seed, room * SIZES[e], "reorder_line");
        break;
    case 6: {
        size_t rooms[4], characters = 99;
        for (int i = 0; i < 4; i++) rooms[i] = below(3) ? near(n) : 0;
        shown_line s = shown_buffers(e, rooms[0], rooms[1], rooms[2], rooms[3], 0x77);
        answer = show_line(e, in, m, c, nc, l, nl, &p, start, end, &s, &characters);
        watch_shown(e, &s, "show_line");
        if (answer < 0) see_unwritten(e, &s, characters, 0x77, "at random");
        static uint32_t out[4096];
        static size_t order[4096];
        int64_t wanted = reorder_line(e, in, m, c, nc, l, nl, &p, start, end, out, COUNT(out));
        if (wanted >= 0) {
            int64_t some = unicode_bidi_line_runs(c, nc, l, nl, &p, start, end, (unicode_bidi_run *)rows_at.end, 0), map = line_map(e, in, m, c, nc, l, nl, &p, start, end, order, COUNT(order));
            int64_t parts[4] = {end - start, some, map, end - start};
            wanted = some;
            for (int i = 0; i < 4; i++)
                if (rooms[i] && rooms[i] < (size_t)parts[i]) wanted = UNICODE_BIDI_NO_ROOM;
            if (answer >= 0 && characters != (size_t)map) FAIL("show_line: %zu characters", characters);
        }
        expect("show_line at random", answer, wanted);
        break;
    }
    case 7: {
        copied(out_at, seed, room * sizeof(uint32_t));
        answer = brackets_of(e, in, m, (uint32_t *)out_at.end - room, room);
        unchanged(answer, out_at, seed, room * sizeof(uint32_t), "brackets");
        copied(out_at, seed, room);
        expect("classes at random", classes_of(e, in, m, out_at.end - room, room), answer);
        unchanged(answer, out_at, seed, room, "classes");
        uint8_t full = next() & 1;
        int64_t found = unicode_bidi_base_direction_of_classes(c, nc, full);
        bool good = true;
        for (size_t i = 0; i < nc; i++) good &= c[i] < 23;
        if (good ? found < UNICODE_BIDI_LTR || found > UNICODE_BIDI_MIXED : found != UNICODE_BIDI_BAD_CLASS) FAIL("the direction of classes at random");
        break;
    }
    case 8: {
        size_t rooms[3], shown = 99, characters = 99;
        for (int i = 0; i < 3; i++) rooms[i] = below(3) ? near(i ? n : 2 * n) : 0;
        uint32_t flags = below(8) ? below(24) : (uint32_t)next() >> below(32);
        displayed_line d = displayed_buffers(e, rooms[0], rooms[1], rooms[2], 0x77);
        answer = display_line(e, in, m, c, nc, l, nl, &p, start, end, flags, &d, &shown, &characters);
        watch_displayed(e, &d, "display_line");
        if (answer < 0) see_undisplayed(e, &d, shown, characters, "at random");
        static uint32_t out[4096];
        int64_t wanted = reorder_line(e, in, m, c, nc, l, nl, &p, start, end, out, COUNT(out));
        if (wanted >= 0 && (flags >= 24 || flags % 4 == 3)) wanted = UNICODE_BIDI_BAD_FLAGS;
        if (wanted >= 0) {
            displayed_line counted = {0, 0, 0, out_at.end, (size_t *)order_at.end, (size_t *)places_at.end};
            wanted = display_line(e, in, m, c, nc, l, nl, &p, start, end, flags, &counted, &shown, &characters);
            if (wanted < 0 || (size_t)wanted > 2 * (end - start) || shown > characters || characters > end - start) FAIL("display_line counted at random: %lld", (long long)wanted);
            size_t parts[3] = {wanted, shown, characters};
            for (int i = 0; i < 3; i++)
                if (rooms[i] && rooms[i] < parts[i]) wanted = UNICODE_BIDI_NO_ROOM;
        }
        expect("display_line at random", answer, wanted);
        break;
    }
    default: {
        size_t *order = copied(order_at, seed, room * sizeof *order);
        answer = unicode_bidi_reorder_visual(l, nl, order, room);
        unchanged(answer, order_at, seed, room * sizeof *order, "reorder_visual");
        uint8_t full = next() & 1;
        direction(e, true, in, m, full);
        int64_t whole = direction(e, false, in, m, full), first = first_direction(e, in, m, full);
        if (first != whole && (whole >= 0 || first < 0)) FAIL("first_direction differs from base_direction");
        break;
    }
    }
}

/* Any classes and brackets: the first fault, and then nothing is written, or an analysis. */
static void classes_at_random(void) {
    static const uint32_t codes[] = {0, 0, '(', '(' + UNICODE_BIDI_OPENING, '[', '[' + UNICODE_BIDI_OPENING, 0x7FFFF, UNICODE_BIDI_OPENING + 0x20};
    static const unsigned char seed[1024] = {1, 2, 3};
    size_t n = below(24), nb = below(3) ? n : below(3) ? 0 : near(n), nc = near(n), nl = below(8) ? nc : near(n), np = near(below(4));
    uint8_t given[24], base = below(2) ? AUTO : below(20) ? below(126) : next() >> 56, split = below(20) ? below(3) : next() >> 56;
    uint32_t brackets[32];
    bool has_classes = true, has_brackets = true;
    for (size_t i = 0; i < n; i++) given[i] = below(200) ? below(23) : next() >> 56, has_classes &= given[i] < 23;
    for (size_t i = 0; i < nb; i++)
        brackets[i] = below(100) ? codes[below(COUNT(codes))] : (uint32_t)next() >> below(32), has_brackets &= is_bracket_code(brackets[i]);
    const uint8_t *in = copied(texts, given, n);
    const uint32_t *b = copied(order_at, brackets, nb * sizeof *b);
    uint8_t *c = copied(classes_at, seed, nc), *l = copied(levels_at, seed, nl);
    unicode_bidi_paragraph *p = copied(rows_at, seed, np * sizeof *p);
    int64_t wanted = nb && nb != n ? UNICODE_BIDI_UNEQUAL_LENGTHS : !has_classes ? UNICODE_BIDI_BAD_CLASS : !has_brackets ? UNICODE_BIDI_BAD_BRACKET
        : base > 125 && base < UNICODE_BIDI_AUTO_RTL ? UNICODE_BIDI_BAD_BASE_LEVEL : split > 2 ? UNICODE_BIDI_BAD_SPLIT : nc < n || nl < n ? UNICODE_BIDI_NO_ROOM : 0;
    if (!wanted) {
        uint8_t own[24], levels[24];
        wanted = unicode_bidi_analyse_classes(in, n, b, nb, base, split, own, n, levels, n, p, 0);
        if (wanted < 0) FAIL("classes at random: %lld", (long long)wanted);
        if (np && np < (size_t)wanted) wanted = UNICODE_BIDI_NO_ROOM;
    }
    expect("classes at random", unicode_bidi_analyse_classes(in, n, b, nb, base, split, c, nc, l, nl, p, np), wanted);
    unchanged(wanted, classes_at, seed, nc, "analyse_classes"), unchanged(wanted, levels_at, seed, nl, "analyse_classes");
    unchanged(wanted, rows_at, seed, np * sizeof *p, "analyse_classes");
}

/* A text in which one character is made faulty: the direction of those before it, if they decide, and else the fault. */
static void try_fault_at_random(const text *t, uint8_t full) {
    if (!t->len) return;
    size_t k = below(t->len);
    for (int e = UTF8; e <= UTF32; e += UTF32 - UTF8) {
        unsigned char *in = copied(texts, t->in[e], t->units[e] * SIZES[e]);
        size_t at = t->at[e][k];
        if (e == UTF8) in[at] = 0xFF;
        else ((uint32_t *)in)[at] = 0x110000;
        int64_t wanted = direction(e, false, t->in[e], at, full);
        bool ended = false;
        for (size_t i = 0; i < k; i++) ended |= t->chars[i] == '\n' || t->chars[i] == '\r' || t->chars[i] == 0x2029;
        if (wanted == UNICODE_BIDI_MIXED && (full || !ended)) wanted = e == UTF8 ? UNICODE_BIDI_NOT_UTF8 : UNICODE_BIDI_NOT_SCALAR;
        if (first_direction(e, in, t->units[e], full) != wanted) FAIL("first_direction of a text with a fault, in %s", NAMES[e]);
    }
}

/* With AUTO_RTL a paragraph in which no character decides is as with the base level 1, and any other as with AUTO.
 * AUTO_LTR is AUTO. */
static void see_fallback(const text *t, uint8_t split) {
    static const uint8_t bases[] = {AUTO, UNICODE_BIDI_AUTO_LTR, UNICODE_BIDI_AUTO_RTL, 1};
    size_t n = t->len;
    const uint32_t *in = copied(texts, t->in[UTF32], n * sizeof *in);
    uint8_t own[MOST], c[4][MOST], l[4][MOST];
    static unicode_bidi_paragraph p[4][MOST + 1];
    int64_t count[4];
    if (unicode_bidi_classes_utf32(in, n, own, n) != (int64_t)n) FAIL("classes");
    for (size_t k = 0; split == WHOLE && k < n; k++)
        if (own[k] == UNICODE_BIDI_B) return; /* a direction of classes ends there */
    for (int b = 0; b < 4; b++) {
        count[b] = unicode_bidi_analyse_utf32(in, n, bases[b], split, c[b], n, l[b], n, p[b], n + 1);
        if (count[b] != count[0] || memcmp(c[b], c[0], n)) FAIL("the base changes classes or paragraphs");
    }
    for (int64_t q = 0; q < count[0]; q++) {
        size_t start = p[0][q].start, end = p[0][q].end;
        int like = unicode_bidi_base_direction_of_classes(own + start, end - start, 0) == UNICODE_BIDI_MIXED ? 3 : 0;
        if (p[2][q].start != start || p[2][q].end != end || p[2][q].level != p[like][q].level || memcmp(l[2] + start, l[like] + start, end - start))
            FAIL("the levels with AUTO_RTL");
        if (p[1][q].level != p[0][q].level || memcmp(l[1] + start, l[0] + start, end - start)) FAIL("the levels with AUTO_LTR");
    }
}

/* A text in the three encodings: all calls answer alike, character by character. */
static void compare_at_random(void) {
    text t;
    memset(&t, 0, sizeof t);
    for (size_t n = below(24); t.len < n;) push(&t, PALETTE[below(COUNT(PALETTE))]);
    uint8_t base = (uint8_t[]){AUTO, UNICODE_BIDI_AUTO_LTR, UNICODE_BIDI_AUTO_RTL, below(126)}[below(4)], split = below(3), c[3][96], l[3][96];
    unicode_bidi_paragraph p[3][25];
    bool tables = below(2), full = below(2);
    int64_t count[3];
    for (int e = UTF8; e <= UTF32; e++) {
        size_t n = t.units[e];
        count[e] = analyse(e, tables, t.in[e], n, base, split, c[e], n, l[e], n, p[e], 25);
        if (count[e] < 0 || count[e] != count[0]) FAIL("paragraphs differ");
        if (direction(e, tables, t.in[e], n, full) != direction(0, tables, t.in[0], t.units[0], full)) FAIL("directions differ");
        if (first_direction(e, t.in[e], n, full) != direction(e, false, t.in[e], n, full)) FAIL("first directions differ");
        for (size_t k = 0; k < t.len; k++)
            for (size_t u = t.at[e][k]; u < t.at[e][k + 1]; u++)
                if (c[e][u] != c[0][t.at[0][k]] || l[e][u] != l[0][t.at[0][k]]) FAIL("levels differ in %s", NAMES[e]);
        uint8_t own[96];
        if (classes_of(e, t.in[e], n, own, n) != (int64_t)n) FAIL("classes in %s", NAMES[e]);
        for (size_t u = 0; !tables && u < n; u++) /* X5c alone gives an analysis another class */
            if (own[u] != c[e][u] && (own[u] != UNICODE_BIDI_FSI || (c[e][u] != UNICODE_BIDI_LRI && c[e][u] != UNICODE_BIDI_RLI)))
                FAIL("classes differ from those of an analysis in %s", NAMES[e]);
        if (e == UTF32 && unicode_bidi_base_direction_of_classes(own, n, full) != direction(e, false, t.in[e], n, full)) FAIL("the direction of classes differs");
    }
    see_characters("at random", &t);
    see_by_classes("at random", &t, tables, base, split, c[UTF32], l[UTF32], p[UTF32], count[UTF32]);
    see_fallback(&t, split);
    try_fault_at_random(&t, full);
    if (!count[0]) return;
    size_t q = below(count[0]), first = 0, last = 0;
    while (t.at[0][first] != p[0][q].start) first++;
    while (t.at[0][last] != p[0][q].end) last++;
    size_t a = first + below(last - first + 1), b = a + below(last - a + 1);
    uint8_t shown[3][96];
    size_t order[3][24];
    text out[3];
    for (int e = UTF8; e <= UTF32; e++) {
        size_t n = t.units[e], start = t.at[e][a], end = t.at[e][b], len = end - start;
        if (p[e][q].start != t.at[e][first] || p[e][q].end != t.at[e][last] || p[e][q].level != p[0][q].level) FAIL("paragraphs differ in %s", NAMES[e]);
        unicode_bidi_run r[96];
        int64_t runs = unicode_bidi_line_runs(c[e], n, l[e], n, &p[e][q], start, end, r, 96);
        if (unicode_bidi_line_levels(c[e], n, l[e], n, &p[e][q], start, end, shown[e], 96) != (int64_t)len
            || line_map(e, t.in[e], n, c[e], n, l[e], n, &p[e][q], start, end, order[e], 24) != (int64_t)(b - a)
            || reorder_line(e, t.in[e], n, c[e], n, l[e], n, &p[e][q], start, end, out[e].in[e], 96) != (int64_t)len || runs < 0)
            FAIL("a line in %s", NAMES[e]);
        for (size_t k = a; k < b; k++)
            for (size_t u = t.at[e][k]; u < t.at[e][k + 1]; u++)
                if (shown[e][u - start] != shown[0][t.at[0][k] - t.at[0][a]]) FAIL("levels of a line differ in %s", NAMES[e]);
        size_t v = 0, at = 0;
        for (int64_t i = 0; i < runs; i++)
            for (size_t j = 0; j < r[i].end - r[i].start;) { /* the runs from left to right are the map, and the text */
                size_t k = a + order[e][v];
                if (order[e][v] != order[0][v] || t.at[e][k] < r[i].start || t.at[e][k + 1] > r[i].end) FAIL("a map differs in %s", NAMES[e]);
                size_t units = t.at[e][k + 1] - t.at[e][k];
                if (memcmp(out[e].in[e] + at * SIZES[e], t.in[e] + t.at[e][k] * SIZES[e], units * SIZES[e])) FAIL("a text differs in %s", NAMES[e]);
                v++, j += units, at += units;
            }
        if (v != b - a) FAIL("runs differ in %s", NAMES[e]);
        see_shown("at random", e, t.in[e], n, c[e], l[e], &p[e][q], start, end);
    }
    static const uint32_t dropped[] = {0, UNICODE_BIDI_DROP_CONTROLS, UNICODE_BIDI_DROP_BOUNDARY_NEUTRALS};
    uint32_t flags = below(3) + (below(2) ? UNICODE_BIDI_MIRROR : 0) + dropped[below(3)];
    size_t displayed[3][24], many[3], plain[24];
    for (int e = UTF8; e <= UTF32; e++) {
        out[e].units[e] = t.at[e][b] - t.at[e][a];
        many[e] = see_displayed("displayed at random", e, &t, t.in[e], c[e], l[e], &p[e][q], a, b, flags, NULL, displayed[e]);
        if (many[e] != many[0] || memcmp(displayed[e], displayed[0], many[0] * sizeof *displayed[0])) FAIL("displayed orders differ in %s", NAMES[e]);
        if (see_displayed("plainly displayed", e, &t, t.in[e], c[e], l[e], &p[e][q], a, b, UNICODE_BIDI_MOVE_CHARACTERS, &out[e], plain) != b - a
            || memcmp(plain, order[0], (b - a) * sizeof *order[0]))
            FAIL("display_line differs from line_map in %s", NAMES[e]);
    }
}

#include "nulls.h"
#include "whole.h"
#include "kept.h"

int main(int argc, char **argv) {
    if (argc < 2) FAIL("usage: callers FOLDER [CALLS [SEED]]");
    const char *folder = argv[1];
    long calls = argc > 2 ? atol(argv[2]) : 20000;
    state = argc > 3 ? strtoull(argv[3], NULL, 10) | 1 : 88172645463325252u;
    texts = new_arena(), classes_at = new_arena(), levels_at = new_arena();
    rows_at = new_arena(), out_at = new_arena(), order_at = new_arena(), shown_at = new_arena(), places_at = new_arena();
    each_row(folder, "sources.rows", read_source);
    each_row(folder, "texts.rows", try_text);
    each_row(folder, "limits.rows", try_text);
    each_row(folder, "lines.rows", try_line);
    each_row(folder, "orders.rows", try_order);
    each_row(folder, "directions.rows", try_direction);
    each_row(folder, "characters.rows", try_character);
    each_row(folder, "../../bidi_vectors_display/data/breaks.rows", try_displayed);
    each_row(folder, "../../bidi_vectors_display/data/carets.rows", try_displayed);
    each_row(folder, "../../bidi_vectors_display/data/clusters.rows", try_displayed);
    each_row(folder, "../../bidi_vectors_display/data/shown.rows", try_displayed);
    each_row(folder, "../../bidi_vectors_display/data/texts.rows", try_displayed_text);
    now = &sources[0];
    try_each_call();
    try_classes();
    try_names();
    try_versions();
    try_faults();
    try_first_direction();
    try_characters();
    try_short_texts();
    try_nulls();
    for (int e = UTF8; e <= UTF32; e++) try_nulls_of_whole_texts(e), try_nulls_of_analysers(e);
    try_whole();
    try_kept();
    try_refusals();
    try_whole_refused();
    try_kept_refused();
    try_long_lines();
    for (long i = 0; i < calls; i++) {
        if (i % 16 == 1) kept_at_random();
        else if (i % 16 == 9) kept_calls_at_random();
        else if (i % 8 == 5) classes_at_random();
        else if (i % 8 == 6) whole_at_random();
        else if (i % 8 == 7) whole_calls_at_random();
        else if (i % 4) call_at_random();
        else compare_at_random();
    }
    free_twice(&kept, "at the end");
    printf("ok callers: %ld rows of texts, %ld of lines, %ld of orders, %ld of characters, %ld of displayed lines, %ld of displayed texts, %ld texts by their classes alone, %ld with an analyser that is kept, %ld left out as too long, each fault, %ld null pointers, %ld refusals of memory, and %ld random calls\n",
           texts_seen, lines_seen, orders_seen, characters_seen, displayed_seen, whole_seen, classes_seen, kept_seen, left_out, nulls_seen, refusals + kept_refusals, calls);
    return 0;
}
