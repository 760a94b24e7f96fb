/* The analysis with an analyser that keeps its memory: it is that without one, for an analyser that is zeroed and for one that
 * has seen other texts and faults. Each fault, null pointers, want of memory, and no request after the first text. Included by
 * callers.c. */

static int64_t analyse_with(int e, unicode_bidi_analyser *a, const void *text, size_t n, uint8_t base, uint8_t split,
                            uint8_t *c, size_t nc, uint8_t *l, size_t nl, unicode_bidi_paragraph *p, size_t np) {
    if (e == UTF8) return unicode_bidi_analyse_with_utf8(a, text, n, base, split, c, nc, l, nl, p, np);
    if (e == UTF16) return unicode_bidi_analyse_with_utf16(a, text, n, base, split, c, nc, l, nl, p, np);
    return unicode_bidi_analyse_with_utf32(a, text, n, base, split, c, nc, l, nl, p, np);
}

static long kept_seen;
static unicode_bidi_analyser kept; /* goes from text to text, and from encoding to encoding */

/* Frees an analyser twice, which leaves it zeroed. */
static void free_twice(unicode_bidi_analyser *a, const char *what) {
    for (int k = 0; k < 2; k++) {
        unicode_bidi_free(a);
        if (a->memory) FAIL("%s: an analyser that was freed keeps memory", what);
    }
}

/* The analyser that goes along and a zeroed one write what the analysis without one writes. Too little room is a fault. */
static void see_kept(const char *what, int e, const text *t, uint8_t base, uint8_t split) {
    static uint8_t c[4 * MOST], l[4 * MOST];
    static unicode_bidi_paragraph p[MOST + 1];
    size_t n = t->units[e];
    int64_t count = analyse(e, false, t->in[e], n, base, split, c, n, l, n, p, MOST + 1);
    const void *in = copied(texts, t->in[e], n * SIZES[e]);
    for (int fresh = 0; fresh < 2; fresh++)
        for (size_t more = 0; more < 2; more++) {
            unicode_bidi_analyser own = {0}, *a = fresh ? &own : &kept;
            uint8_t *classes = buffer(classes_at, n + more, 0x77), *levels = buffer(levels_at, n + more, 0x77);
            unicode_bidi_paragraph *found = buffer(rows_at, (count + more) * sizeof *found, 0x77);
            if (analyse_with(e, a, in, n, base, split, classes, n + more, levels, n + more, found, count + more) != count) FAIL("%s: kept paragraphs in %s", what, NAMES[e]);
            if (memcmp(classes, c, n) || memcmp(levels, l, n)) FAIL("%s: kept levels in %s", what, NAMES[e]);
            for (int64_t q = 0; q < count; q++)
                if (found[q].start != p[q].start || found[q].end != p[q].end || found[q].level != p[q].level) FAIL("%s: a kept paragraph in %s", what, NAMES[e]);
            if (!all_are(classes + n, more, 0x77) || !all_are(levels + n, more, 0x77) || !all_are(found + count, more * sizeof *found, 0x77)) FAIL("%s: past the kept levels in %s", what, NAMES[e]);
            watch(classes_at, n + more, what), watch(levels_at, n + more, what), watch(rows_at, (count + more) * sizeof *found, what);
            if (analyse_with(e, a, in, n, base, split, classes, n, levels, n, found, 0) != count) FAIL("%s: counted in %s", what, NAMES[e]);
            if (!a->memory) FAIL("%s: nothing is kept in %s", what, NAMES[e]);
            free_twice(&own, what);
        }
    for (int part = 0; part < 3; part++) { /* one entry too few, where that is not none */
        size_t rooms[3] = {n, n, count};
        if (rooms[part] < 2) continue;
        rooms[part]--;
        uint8_t *classes = buffer(classes_at, rooms[0], 0x77), *levels = buffer(levels_at, rooms[1], 0x77);
        unicode_bidi_paragraph *found = buffer(rows_at, rooms[2] * sizeof *found, 0x77);
        if (analyse_with(e, &kept, in, n, base, split, classes, rooms[0], levels, rooms[1], found, rooms[2]) != UNICODE_BIDI_NO_ROOM) FAIL("%s: kept in %s with little room", what, NAMES[e]);
        if (!all_are(classes, rooms[0], 0x77) || !all_are(levels, rooms[1], 0x77) || !all_are(found, rooms[2] * sizeof *found, 0x77)) FAIL("%s: a fault that wrote in %s", what, NAMES[e]);
    }
    kept_seen++;
}

/* Hebrew in brackets and in isolates, worked by hand: the analyser of this test still serves a text. */
static void see_it_serves(unicode_bidi_analyser *a, const char *what) {
    static const uint32_t chars[] = {0x5D0, '(', '1', ')', 0x2068, 'a', 0x2069};
    static const uint8_t classes[] = {1, 13, 3, 13, 19, 0, 22}, levels[] = {1, 1, 2, 1, 1, 2, 1};
    uint8_t c[7], l[7];
    unicode_bidi_paragraph p[1];
    expect(what, analyse_with(UTF32, a, chars, 7, AUTO, SPLIT, c, 7, l, 7, p, 1), 1);
    if (memcmp(c, classes, 7) || memcmp(l, levels, 7) || p->start != 0 || p->end != 7 || p->level != 1) FAIL("%s: the next text", what);
}

/* Each fault, with every later one at the same time, and a text after it. */
static void try_kept(void) {
    static const uint8_t broken[] = {'a', 0xD7};
    static const uint32_t no_char[] = {'a', 0x110000};
    uint8_t c[2] = {0x77, 0x77}, l[2] = {0x77, 0x77};
    unicode_bidi_paragraph p[1];
    memset(p, 0x77, sizeof p);
    for (int fresh = 0; fresh < 2; fresh++) {
        unicode_bidi_analyser a = {0};
        free_twice(&a, "a zeroed analyser");
        if (!fresh) see_it_serves(&a, "a first text");
        const struct {
            int encoding;
            const void *text;
            uint8_t base, split;
            size_t classes, levels;
            int64_t fault;
        } calls[] = {
            {UTF8, broken, 126, 3, 1, 1, UNICODE_BIDI_NOT_UTF8},
            {UTF32, no_char, 126, 3, 1, 1, UNICODE_BIDI_NOT_SCALAR},
            {UTF16, u"\n\n", 126, 3, 1, 1, UNICODE_BIDI_BAD_BASE_LEVEL},
            {UTF16, u"\n\n", 252, 3, 1, 1, UNICODE_BIDI_BAD_BASE_LEVEL},
            {UTF8, "\n\n", AUTO, 3, 1, 1, UNICODE_BIDI_BAD_SPLIT},
            {UTF8, "\n\n", AUTO, SPLIT, 1, 2, UNICODE_BIDI_NO_ROOM},
            {UTF8, "\n\n", AUTO, SPLIT, 2, 1, UNICODE_BIDI_NO_ROOM},
            {UTF8, "\n\n", AUTO, SPLIT, 2, 2, UNICODE_BIDI_NO_ROOM}, /* for the paragraphs */
        };
        for (size_t i = 0; i < COUNT(calls); i++) {
            if (fresh) free_twice(&a, "before a fault");
            expect("a fault of an analyser", analyse_with(calls[i].encoding, &a, calls[i].text, 2, calls[i].base, calls[i].split, c, calls[i].classes, l, calls[i].levels, p, 1), calls[i].fault);
            if (!all_are(c, 2, 0x77) || !all_are(l, 2, 0x77) || !all_are(p, sizeof p, 0x77)) FAIL("a fault of an analyser that wrote");
            see_it_serves(&a, "after a fault");
        }
        free_twice(&a, "after faults");
        see_it_serves(&a, "after it was freed");
        free_twice(&a, "at the end");
    }
}

static long kept_refusals;

/* Each request refused in turn: the same analyser then serves the text. After that neither this text nor a part of it needs
 * any request, in any encoding. */
static void try_kept_refused(void) {
    text t, part;
    read_utf8(&t, u8"a\u05D0 (\u05D1[1\u05D0]) 12\u202Bb\u202C\u2067c\u2068\u05D0\u2068\u2069\u2069\u2069 \u05D0a\u05D0a\u05D0a\u05D0a\u05D0a\u05D0a\u05D0a\u05D0a\u05D0a\u05D0a\nb\u2068\u05D0\u2069");
    read_utf8(&part, u8"b\u2068\u05D0 (\u05D1) \u2067c\u2069\u2069\u202Bb\u202C");
    while (t.len < 2 * 256 / 3) push(&t, t.len % 2 ? 0x5D0 : ' ');
    for (int e = UTF8; e <= UTF32; e++) {
        size_t n = t.units[e];
        uint8_t c[4 * MOST], l[4 * MOST], wanted[4 * MOST];
        unicode_bidi_paragraph p[2];
        if (analyse(e, false, t.in[e], n, AUTO, SPLIT, c, n, wanted, n, p, 2) != 2) FAIL("two paragraphs");
        for (long k = 0;; k++) {
            unicode_bidi_analyser a = {0};
            memset(l, 0x77, n), memset(c, 0x77, n);
            until_refusal = k, was_refused = false;
            int64_t found = analyse_with(e, &a, t.in[e], n, AUTO, SPLIT, c, n, l, n, p, 2);
            until_refusal = -1;
            bool refused = was_refused;
            if (refused && found != 2) {
                if (found != UNICODE_BIDI_NO_MEMORY) FAIL("an analyser: request %ld refused: %lld", k, (long long)found);
                if (!all_are(c, n, 0x77) || !all_are(l, n, 0x77)) FAIL("an analyser: request %ld refused, and written", k);
                kept_refusals++;
            }
            if (analyse_with(e, &a, t.in[e], n, AUTO, SPLIT, c, n, l, n, p, 2) != 2 || memcmp(l, wanted, n)) FAIL("an analyser after request %ld was refused", k);
            until_refusal = 0, was_refused = false;
            for (int again = 0; again < 2; again++)
                if (analyse_with(e, &a, t.in[e], n, AUTO, SPLIT, c, n, l, n, p, 2) != 2 || memcmp(l, wanted, n)
                    || analyse_with(e, &a, part.in[e], part.units[e], AUTO, WHOLE, c, n, l, n, p, 1) != 1 || was_refused)
                    FAIL("an analyser asks for memory after its first text in %s", NAMES[e]);
            until_refusal = -1;
            free_twice(&a, "after a refusal");
            if (!refused) {
                if (!k) FAIL("an analyser asks for no memory at all in %s", NAMES[e]);
                break;
            }
        }
    }
}

static void try_nulls_of_analysers(int e) {
    const void *a = e == UTF8 ? (const void *)"a" : e == UTF16 ? (const void *)(const uint16_t[]){'a'} : (const void *)(const uint32_t[]){'a'};
    uint8_t two[2];
    unicode_bidi_paragraph paragraph;
    for (int fresh = 0; fresh < 2; fresh++) {
        for (uint8_t split = WHOLE; split <= TOGETHER; ++split) {
            if (fresh) unicode_bidi_free(&kept);
            SAME_WITH_NULL("kept, no text", analyse_with(e, &kept, NONE(void), 0, AUTO, split, NONE(uint8_t), 0, NONE(uint8_t), 0, NONE(unicode_bidi_paragraph), 0));
        }
        SAME_WITH_NULL("kept, no paragraphs", analyse_with(e, &kept, a, 1, AUTO, SPLIT, two, 1, two + 1, 1, NONE(unicode_bidi_paragraph), 0));
        SAME_WITH_NULL("kept, no room for classes", analyse_with(e, &kept, a, 1, AUTO, SPLIT, NONE(uint8_t), 0, two, 1, &paragraph, 1));
        SAME_WITH_NULL("kept, no room for levels", analyse_with(e, &kept, a, 1, AUTO, SPLIT, two, 1, NONE(uint8_t), 0, &paragraph, 1));
    }
}

/* A text in the three encodings. Now and then the analyser begins anew. */
static void kept_at_random(void) {
    text t;
    memset(&t, 0, sizeof t);
    for (size_t n = below(24); t.len < n;) push(&t, PALETTE[below(COUNT(PALETTE))]);
    uint8_t base = (uint8_t[]){AUTO, UNICODE_BIDI_AUTO_LTR, UNICODE_BIDI_AUTO_RTL, below(126)}[below(4)], split = below(3);
    if (!below(50)) free_twice(&kept, "at random");
    for (int e = UTF8; e <= UTF32; e++) see_kept("kept at random", e, &t, base, split);
}

/* Any bytes and sizes: the answer is a count or a fault, and after a fault nothing is written. */
static void kept_calls_at_random(void) {
    static unsigned char seed[1024];
    for (size_t i = 0; i < sizeof seed; i++) seed[i] = below(3) ? below(24) : next() >> 56;
    int e = below(3);
    size_t n = below(24), rooms[3];
    for (int i = 0; i < 3; i++) rooms[i] = below(3) ? near(n) : below(24);
    uint8_t base = below(2) ? AUTO : next() >> 56, split = below(9) ? below(3) : next() >> 56;
    const void *in = copied(texts, seed, n * SIZES[e]);
    uint8_t *c = copied(classes_at, seed, rooms[0]), *l = copied(levels_at, seed, rooms[1]);
    unicode_bidi_paragraph *p = copied(rows_at, seed, rooms[2] * sizeof *p);
    int64_t found = analyse_with(e, &kept, in, n, base, split, c, rooms[0], l, rooms[1], p, rooms[2]);
    unchanged(found, classes_at, seed, rooms[0], "kept"), unchanged(found, levels_at, seed, rooms[1], "kept");
    unchanged(found, rows_at, seed, rooms[2] * sizeof *p, "kept");
}
