/* The calls over a whole text that display it or find its paragraphs, the maps by classes alone, and the inverse of a map:
 * against the calls for each part, with each choice of buffers, each fault, and want of memory. Included by callers.c. */

static int64_t display_text(int e, const void *text, size_t n, uint8_t base, uint8_t split, uint32_t flags, uint8_t *levels, size_t levels_len,
                            const displayed_line *d, size_t *shown, size_t *characters) {
    if (e == UTF8)
        return unicode_bidi_display_text_utf8(text, n, base, split, flags, levels, levels_len, d->out, d->out_len, d->order, d->order_len, d->places, d->places_len, shown, characters);
    if (e == UTF16)
        return unicode_bidi_display_text_utf16(text, n, base, split, flags, levels, levels_len, d->out, d->out_len, d->order, d->order_len, d->places, d->places_len, shown, characters);
    return unicode_bidi_display_text_utf32(text, n, base, split, flags, levels, levels_len, d->out, d->out_len, d->order, d->order_len, d->places, d->places_len, shown, characters);
}

static int64_t find_paragraphs(int e, const void *text, size_t n, uint8_t base, uint8_t split, uint8_t *c, size_t nc, unicode_bidi_paragraph *p, size_t np) {
    return BY_ENCODING(e, paragraphs, text, n, base, split, c, nc, p, np);
}

/* What is displayed of a whole text. */
typedef struct {
    size_t units, shown, characters;
    uint8_t levels[4 * MOST];
    unsigned char out[8 * MOST];
    size_t order[MOST], places[MOST];
} whole_text;

/* The same by other calls: each paragraph is a line, and its separators stay behind it. */
static void display_by_lines(const char *what, int e, const text *t, uint8_t base, uint8_t split, uint32_t flags, whole_text *w) {
    static uint8_t c[4 * MOST], l[4 * MOST];
    static unicode_bidi_paragraph p[MOST + 1];
    size_t n = t->units[e], k = 0;
    int64_t count = analyse(e, false, t->in[e], n, base, split, c, n, l, n, p, MOST + 1);
    if (count < 0) FAIL("%s: an analysis in %s", what, NAMES[e]);
    memset(w, 0, sizeof *w);
    for (int64_t q = 0; q < count; q++) {
        size_t end = p[q].end, shown, characters;
        if (unicode_bidi_line_levels(c, n, l, n, &p[q], p[q].start, end, w->levels + p[q].start, n) < 0) FAIL("%s: levels in %s", what, NAMES[e]);
        while (end > p[q].start && c[end - 1] == UNICODE_BIDI_B) end--;
        displayed_line d = {sizeof w->out / SIZES[e] - w->units, MOST - w->shown, 0, w->out + w->units * SIZES[e], w->order + w->shown, w->places};
        int64_t units = display_line(e, t->in[e], n, c, n, l, n, &p[q], p[q].start, end, flags, &d, &shown, &characters);
        if (units < 0) FAIL("%s: a line in %s", what, NAMES[e]);
        for (size_t i = 0; i < shown; i++) w->order[w->shown + i] += k;
        w->units += units, w->shown += shown, k += characters;
        memcpy(w->out + w->units * SIZES[e], t->in[e] + end * SIZES[e], (p[q].end - end) * SIZES[e]);
        w->units += p[q].end - end;
        for (; k < t->len && t->at[e][k] < p[q].end; k++) w->order[w->shown++] = k;
    }
    w->characters = k;
    if (k != t->len || unicode_bidi_places(w->order, w->shown, w->places, k) != (int64_t)k) FAIL("%s: the places in %s", what, NAMES[e]);
}

/* The call writes what the calls for each line write, with each choice of buffers. Too little room in any of them is a fault.
 * If `wanted` is no null, it is the displayed text. */
static void see_displayed_text(const char *what, int e, const text *t, uint8_t base, uint8_t split, uint32_t flags, const text *wanted) {
    static whole_text w;
    size_t n = t->units[e];
    const void *in = copied(texts, t->in[e], n * SIZES[e]);
    display_by_lines(what, e, t, base, split, flags, &w);
    if (wanted && (wanted->units[e] != w.units || memcmp(wanted->in[e], w.out, w.units * SIZES[e]))) FAIL("%s: another text in %s", what, NAMES[e]);
    for (int chosen = 0; chosen < 16; chosen++)
        for (size_t more = 0; more < 2; more++) {
            displayed_line d = displayed_buffers(e, chosen & 1 ? w.units + more : 0, chosen & 2 ? w.shown + more : 0, chosen & 4 ? w.characters + more : 0, 0x77);
            size_t room = chosen & 8 ? n + more : 0, shown = 99, characters = 99;
            uint8_t *l = buffer(levels_at, room, 0x77);
            if (display_text(e, in, n, base, split, flags, l, room, &d, &shown, &characters) != (int64_t)w.units || shown != w.shown || characters != w.characters)
                FAIL("%s: display_text in %s, buffers %d", what, NAMES[e], chosen);
            if (d.out_len && (memcmp(d.out, w.out, w.units * SIZES[e]) || !all_are((unsigned char *)d.out + w.units * SIZES[e], more * SIZES[e], 0x77))) FAIL("%s: a whole text in %s", what, NAMES[e]);
            if (d.order_len && (memcmp(d.order, w.order, w.shown * sizeof *w.order) || !all_are(d.order + w.shown, more * sizeof *w.order, 0x77))) FAIL("%s: its order in %s", what, NAMES[e]);
            if (d.places_len && (memcmp(d.places, w.places, w.characters * sizeof *w.places) || !all_are(d.places + w.characters, more * sizeof *w.places, 0x77))) FAIL("%s: its places in %s", what, NAMES[e]);
            if (room && (memcmp(l, w.levels, n) || !all_are(l + n, more, 0x77))) FAIL("%s: its levels in %s", what, NAMES[e]);
            watch_displayed(e, &d, what), watch(levels_at, room, what);
        }
    for (int part = 0; part < 4; part++) { /* one entry too few, where that is not none */
        size_t rooms[4] = {w.units, w.shown, w.characters, n}, shown = 99, characters = 99;
        if (rooms[part] < 2) continue;
        rooms[part]--;
        displayed_line d = displayed_buffers(e, rooms[0], rooms[1], rooms[2], 0x77);
        uint8_t *l = buffer(levels_at, rooms[3], 0x77);
        if (display_text(e, in, n, base, split, flags, l, rooms[3], &d, &shown, &characters) != UNICODE_BIDI_NO_ROOM) FAIL("%s: display_text in %s with little room", what, NAMES[e]);
        see_undisplayed(e, &d, shown, characters, what);
        if (!all_are(l, rooms[3], 0x77)) FAIL("%s: a fault of display_text that wrote levels", what);
    }
}

/* The classes and paragraphs are those of an analysis, with each choice of buffers. */
static void see_paragraphs(const char *what, int e, const text *t, uint8_t base, uint8_t split) {
    static uint8_t c[4 * MOST], l[4 * MOST];
    static unicode_bidi_paragraph p[MOST + 1];
    size_t n = t->units[e];
    int64_t count = analyse(e, false, t->in[e], n, base, split, c, n, l, n, p, MOST + 1);
    const void *in = copied(texts, t->in[e], n * SIZES[e]);
    for (int chosen = 0; chosen < 4; chosen++)
        for (size_t more = 0; more < 2; more++) {
            size_t nc = chosen & 1 ? n + more : 0, np = chosen & 2 ? count + more : 0;
            uint8_t *own = buffer(classes_at, nc, 0x77);
            unicode_bidi_paragraph *found = buffer(rows_at, np * sizeof *found, 0x77);
            if (find_paragraphs(e, in, n, base, split, own, nc, found, np) != count) FAIL("%s: paragraphs in %s, buffers %d", what, NAMES[e], chosen);
            if (nc && (memcmp(own, c, n) || !all_are(own + n, more, 0x77))) FAIL("%s: classes of paragraphs in %s", what, NAMES[e]);
            for (int64_t q = 0; np && q < count; q++)
                if (found[q].start != p[q].start || found[q].end != p[q].end || found[q].level != p[q].level) FAIL("%s: a paragraph in %s", what, NAMES[e]);
            if (np && !all_are(found + count, more * sizeof *found, 0x77)) FAIL("%s: past the paragraphs in %s", what, NAMES[e]);
            watch(classes_at, nc, what), watch(rows_at, np * sizeof *found, what);
        }
    for (int part = 0; part < 2; part++) {
        size_t nc = n - !part, np = count - part;
        if (part ? count < 2 : n < 2) continue; /* one entry too few, where that is not none */
        uint8_t *own = buffer(classes_at, nc, 0x77);
        unicode_bidi_paragraph *found = buffer(rows_at, np * sizeof *found, 0x77);
        if (find_paragraphs(e, in, n, base, split, own, nc, found, np) != UNICODE_BIDI_NO_ROOM) FAIL("%s: paragraphs in %s with little room", what, NAMES[e]);
        if (!all_are(own, nc, 0x77) || !all_are(found, np * sizeof *found, 0x77)) FAIL("%s: a fault of paragraphs that wrote", what);
    }
}

/* The maps by classes and levels alone are those of the displayed characters from a up to b, if none is dropped. */
static void see_line_order(const char *what, const text *t, const uint8_t *c, const uint8_t *l, const unicode_bidi_paragraph *p, size_t a, size_t b) {
    static size_t order[MOST], places[MOST];
    size_t n = t->len, len = b - a;
    for (uint32_t flags = 0; flags < 2; flags++) {
        displayed_line d = {0, len, len, out_at.end, order, places};
        size_t shown, characters;
        if (display_line(UTF32, t->in[UTF32], n, c, n, l, n, p, a, b, flags, &d, &shown, &characters) < 0 || shown != len) FAIL("%s: a line", what);
        for (int chosen = 0; chosen < 4; chosen++)
            for (size_t more = 0; more < 2; more++) {
                size_t no = chosen & 1 ? len + more : 0, np = chosen & 2 ? len + more : 0;
                size_t *o = buffer(order_at, no * sizeof *o, 0x77), *places_of = buffer(places_at, np * sizeof *o, 0x77);
                expect("line_order", unicode_bidi_line_order(c, n, l, n, p, a, b, flags, o, no, places_of, np), len);
                if (no && (memcmp(o, order, len * sizeof *o) || !all_are(o + len, more * sizeof *o, 0x77))) FAIL("%s: an order by classes", what);
                if (np && (memcmp(places_of, places, len * sizeof *o) || !all_are(places_of + len, more * sizeof *o, 0x77))) FAIL("%s: places by classes", what);
                watch(order_at, no * sizeof *o, what), watch(places_at, np * sizeof *o, what);
            }
        if (len < 2) continue;
        for (int part = 0; part < 2; part++) {
            size_t no = len - part, np = len - !part, *o = buffer(order_at, no * sizeof *o, 0x77), *places_of = buffer(places_at, np * sizeof *o, 0x77);
            expect("line_order with little room", unicode_bidi_line_order(c, n, l, n, p, a, b, flags, o, no, places_of, np), UNICODE_BIDI_NO_ROOM);
            if (!all_are(o, no * sizeof *o, 0x77) || !all_are(places_of, np * sizeof *o, 0x77)) FAIL("%s: a fault of line_order that wrote", what);
        }
    }
}

static long whole_seen;

/* A row of a displayed text. */
static void try_displayed_text(const row *r) {
    static text t, wanted;
    if (strcmp(r->kind, "displayed text")) return;
    if (!read_text(r, "text", &t)) { left_out++; return; }
    if (!read_text(r, "shown", &wanted)) memset(&wanted, 0, sizeof wanted);
    whole_seen++;
    const char *split_name = get(r, "split"), *fallback = get(r, "fallback");
    uint8_t split = split_name && !strcmp(split_name, "cr-lf-together") ? TOGETHER : SPLIT;
    uint8_t base = fallback && !strcmp(fallback, "1") ? UNICODE_BIDI_AUTO_RTL : base_of(r);
    for (int e = UTF8; e <= UTF32; e++) {
        if (t.is_utf16_alone && e != UTF16) continue;
        see_displayed_text(r->name, e, &t, base, split, flags_of(r) + UNICODE_BIDI_MIRROR, &wanted);
        see_paragraphs(r->name, e, &t, base, split);
        static list ps;
        unicode_bidi_paragraph p[MOST];
        int64_t count = find_paragraphs(e, t.in[e], t.units[e], base, split, (uint8_t *)classes_at.end, 0, p, MOST);
        if (!words(r, "paragraphs", &ps) || (int64_t)ps.count != count) BAD_ROW(r, "%s: %lld paragraphs", NAMES[e], (long long)count);
        for (size_t k = 0; k < ps.count; k++) {
            size_t from, to;
            int level;
            if (sscanf(ps.items[k], "%zu..%zu:%d", &from, &to, &level) != 3) BAD_ROW(r, "a paragraph");
            if (p[k].start != place_of(r, &t, e, from) || p[k].end != place_of(r, &t, e, to) || p[k].level != level) BAD_ROW(r, "%s: paragraph %s", NAMES[e], ps.items[k]);
        }
    }
}

/* Worked by hand, each fault, and each two faults at once. */
static void try_whole(void) {
    static const size_t order[] = {2, 0, 2, 9}, inverse[] = {1, UNICODE_BIDI_NOWHERE, 0, UNICODE_BIDI_NOWHERE};
    static const uint8_t marks[] = {UNICODE_BIDI_R, UNICODE_BIDI_R, UNICODE_BIDI_NSM, UNICODE_BIDI_NSM, UNICODE_BIDI_R}, ones[] = {1, 1, 1, 1, 1};
    static const size_t behind[] = {4, 1, 2, 3, 0};
    size_t places[5], found[5], shown = 99, characters = 99;
    expect("places", unicode_bidi_places(order, 4, places, 4), 4);
    if (memcmp(places, inverse, sizeof inverse)) FAIL("the inverse of a map");
    expect("places of nothing", unicode_bidi_places(order, 0, places, 1), 1);
    if (places[0] != UNICODE_BIDI_NOWHERE) FAIL("places of nothing");
    const unicode_bidi_paragraph p = {0, 5, 1}, deep = {0, 5, 127};
    expect("marks", unicode_bidi_line_order(marks, 5, ones, 5, &p, 0, 5, UNICODE_BIDI_MOVE_MARKS, found, 5, places, 5), 5);
    if (memcmp(found, behind, sizeof behind) || memcmp(places, behind, sizeof behind)) FAIL("the order of marks");

    static const uint8_t broken[] = {'a', 0xD7}, high[] = {1, 1, 127, 1, 1}, bad_class[] = {1, 23, 1, 1, 1};
    static const uint32_t no_char[] = {'a', 0x110000};
    static const uint32_t bad_flags[] = {2, 3, 4, 8, 16, UINT32_MAX};
    memset(found, 0x77, sizeof found), memset(places, 0x77, sizeof places);
    for (size_t i = 0; i < COUNT(bad_flags); i++) { /* with too little room, which is tested last */
        expect("flags of an order", unicode_bidi_line_order(marks, 5, ones, 5, &p, 0, 5, bad_flags[i], found, 4, places, 4), UNICODE_BIDI_BAD_FLAGS);
        expect("lengths", unicode_bidi_line_order(marks, 5, ones, 4, &p, 0, 4, bad_flags[i], found, 1, places, 1), UNICODE_BIDI_UNEQUAL_LENGTHS);
        expect("a line", unicode_bidi_line_order(marks, 5, ones, 5, &p, 0, 6, bad_flags[i], found, 1, places, 1), UNICODE_BIDI_BAD_LINE);
        expect("a class", unicode_bidi_line_order(bad_class, 5, ones, 5, &p, 0, 5, bad_flags[i], found, 1, places, 1), UNICODE_BIDI_BAD_CLASS);
        expect("a level", unicode_bidi_line_order(marks, 5, high, 5, &p, 0, 5, bad_flags[i], found, 1, places, 1), UNICODE_BIDI_BAD_LEVEL);
        expect("a paragraph", unicode_bidi_line_order(marks, 5, ones, 5, &deep, 0, 5, bad_flags[i], found, 1, places, 1), UNICODE_BIDI_BAD_LEVEL);
    }
    /* each fault with every later one */
    expect("lengths first", unicode_bidi_line_order(bad_class, 5, high, 4, &deep, 0, 6, 2, found, 1, places, 1), UNICODE_BIDI_UNEQUAL_LENGTHS);
    expect("then the line", unicode_bidi_line_order(bad_class, 5, high, 5, &deep, 0, 6, 2, found, 1, places, 1), UNICODE_BIDI_BAD_LINE);
    expect("then a class", unicode_bidi_line_order(bad_class, 5, high, 5, &deep, 0, 5, 2, found, 1, places, 1), UNICODE_BIDI_BAD_CLASS);
    expect("then a level", unicode_bidi_line_order(marks, 5, high, 5, &deep, 0, 5, 2, found, 1, places, 1), UNICODE_BIDI_BAD_LEVEL);
    expect("then the paragraph", unicode_bidi_line_order(marks, 5, ones, 5, &deep, 0, 5, 2, found, 1, places, 1), UNICODE_BIDI_BAD_LEVEL);
    expect("then the flags", unicode_bidi_line_order(marks, 5, ones, 5, &p, 0, 5, 2, found, 1, places, 1), UNICODE_BIDI_BAD_FLAGS);
    expect("then room", unicode_bidi_line_order(marks, 5, ones, 5, &p, 0, 5, 0, found, 1, places, 1), UNICODE_BIDI_NO_ROOM);
    uint8_t l[2] = {0x77, 0x77}, c[2] = {0x77, 0x77}, out[2] = {0x77, 0x77};
    uint32_t out32[2] = {0x77, 0x77};
    unicode_bidi_paragraph ps[1];
    memset(ps, 0x77, sizeof ps);
    const displayed_line d = {1, 1, 1, out, found, places}, d32 = {1, 1, 1, out32, found, places};
    expect("not UTF-8", display_text(UTF8, broken, 2, 126, 3, 3, l, 1, &d, &shown, &characters), UNICODE_BIDI_NOT_UTF8);
    expect("no scalar value", display_text(UTF32, no_char, 2, 126, 3, 3, l, 1, &d32, &shown, &characters), UNICODE_BIDI_NOT_SCALAR);
    expect("base level", display_text(UTF8, "ab", 2, 126, 3, 3, l, 1, &d, &shown, &characters), UNICODE_BIDI_BAD_BASE_LEVEL);
    expect("split rule", display_text(UTF8, "ab", 2, AUTO, 3, 3, l, 1, &d, &shown, &characters), UNICODE_BIDI_BAD_SPLIT);
    expect("flags of a text", display_text(UTF8, "ab", 2, AUTO, SPLIT, 3, l, 1, &d, &shown, &characters), UNICODE_BIDI_BAD_FLAGS);
    expect("room", display_text(UTF8, "ab", 2, AUTO, SPLIT, 0, l, 1, &d, &shown, &characters), UNICODE_BIDI_NO_ROOM);
    expect("paragraphs of what is not UTF-8", find_paragraphs(UTF8, broken, 2, 126, 3, c, 1, ps, 1), UNICODE_BIDI_NOT_UTF8);
    expect("paragraphs of no scalar value", find_paragraphs(UTF32, no_char, 2, 126, 3, c, 1, ps, 1), UNICODE_BIDI_NOT_SCALAR);
    expect("base level of paragraphs", find_paragraphs(UTF8, "ab", 2, 252, 3, c, 1, ps, 1), UNICODE_BIDI_BAD_BASE_LEVEL);
    expect("split rule of paragraphs", find_paragraphs(UTF8, "ab", 2, AUTO, 3, c, 1, ps, 1), UNICODE_BIDI_BAD_SPLIT);
    expect("room for classes of paragraphs", find_paragraphs(UTF8, "ab", 2, AUTO, SPLIT, c, 1, ps, 1), UNICODE_BIDI_NO_ROOM);
    expect("room for paragraphs", find_paragraphs(UTF8, "\n\n", 2, AUTO, SPLIT, c, 2, ps, 1), UNICODE_BIDI_NO_ROOM);
    if (!all_are(found, sizeof found, 0x77) || !all_are(places, sizeof places, 0x77) || !all_are(l, 2, 0x77) || !all_are(c, 2, 0x77) || !all_are(out, 2, 0x77)
        || !all_are(out32, 1, 0x77) || !all_are(ps, sizeof ps, 0x77) || shown != 99 || characters != 99)
        FAIL("a fault over a whole text that wrote");
}

/* The calls with each of their requests for memory refused in turn. Short paragraphs need none. */
static void try_whole_refused(void) {
    text t;
    read_utf8(&t, u8"a\u05D0 (\u05D1) 12\u202Bb\u202C\u2068\u05D0\u2069\n\u2067c\u2069");
    for (int e = UTF8; e <= UTF32; e++) {
        size_t n = t.units[e], shown, characters;
        uint8_t c[4 * MOST];
        unicode_bidi_paragraph p[2];
        displayed_line d = {2 * n, n, n, out_at.end - 2 * n * SIZES[e], (size_t *)order_at.end - n, (size_t *)places_at.end - n};
        SWEEP("display_text", out_at, 2 * n * SIZES[e], display_text(e, t.in[e], n, AUTO, SPLIT, UNICODE_BIDI_MOVE_CLUSTERS, levels_at.end - n, n, &d, &shown, &characters));
        SWEEP("paragraphs", rows_at, sizeof p, find_paragraphs(e, t.in[e], n, AUTO, SPLIT, c, n, (unicode_bidi_paragraph *)rows_at.end - 2, 2));
        const unicode_bidi_paragraph whole = {0, n, 1};
        if (analyse(e, false, t.in[e], n, AUTO, WHOLE, c, n, levels_at.end - n, n, p, 1) != 1) FAIL("one paragraph");
        SWEEP("line_order", order_at, n * sizeof(size_t), unicode_bidi_line_order(c, n, levels_at.end - n, n, &whole, 0, n, 1, (size_t *)order_at.end - n, n, (size_t *)places_at.end, 0));
        until_refusal = 0, was_refused = false;
        if (find_paragraphs(e, t.in[e], t.at[e][9], AUTO, WHOLE, c, n, p, 1) != 1 || unicode_bidi_places(d.order, n, d.places, n) != (int64_t)n || was_refused)
            FAIL("short paragraphs or places take memory in %s", NAMES[e]);
        until_refusal = -1;
    }
}

static void try_nulls_of_whole_texts(int e) {
    const void *a = e == UTF8 ? (const void *)"a" : e == UTF16 ? (const void *)(const uint16_t[]){'a'} : (const void *)(const uint32_t[]){'a'};
    uint32_t units[2];
    uint8_t level, class;
    size_t index, shown, characters;
    unicode_bidi_paragraph paragraph;
    for (uint8_t split = WHOLE; split <= TOGETHER; ++split) {
        SAME_WITH_NULL("display text, no text", display_text(e, NONE(void), 0, AUTO, split, 0, NONE(uint8_t), 0, &(displayed_line){0, 0, 0, NONE(void), NONE(size_t), NONE(size_t)}, &shown, &characters));
        SAME_WITH_NULL("paragraphs, no text", find_paragraphs(e, NONE(void), 0, AUTO, split, NONE(uint8_t), 0, NONE(unicode_bidi_paragraph), 0));
    }
    SAME_WITH_NULL("display text, no buffers", display_text(e, a, 1, AUTO, SPLIT, 0, NONE(uint8_t), 0, &(displayed_line){0, 0, 0, NONE(void), NONE(size_t), NONE(size_t)}, &shown, &characters));
    SAME_WITH_NULL("display text, levels alone", display_text(e, a, 1, AUTO, SPLIT, 0, &level, 1, &(displayed_line){0, 0, 0, NONE(void), NONE(size_t), NONE(size_t)}, &shown, &characters));
    SAME_WITH_NULL("display text, text alone", display_text(e, a, 1, AUTO, SPLIT, 0, NONE(uint8_t), 0, &(displayed_line){2, 0, 0, units, NONE(size_t), NONE(size_t)}, &shown, &characters));
    SAME_WITH_NULL("display text, order alone", display_text(e, a, 1, AUTO, SPLIT, 0, NONE(uint8_t), 0, &(displayed_line){0, 1, 0, NONE(void), &index, NONE(size_t)}, &shown, &characters));
    SAME_WITH_NULL("display text, places alone", display_text(e, a, 1, AUTO, SPLIT, 0, NONE(uint8_t), 0, &(displayed_line){0, 0, 1, NONE(void), NONE(size_t), &index}, &shown, &characters));
    SAME_WITH_NULL("paragraphs, classes alone", find_paragraphs(e, a, 1, AUTO, SPLIT, &class, 1, NONE(unicode_bidi_paragraph), 0));
    SAME_WITH_NULL("paragraphs alone", find_paragraphs(e, a, 1, AUTO, SPLIT, NONE(uint8_t), 0, &paragraph, 1));
    const unicode_bidi_paragraph none = {0, 0, 0}, one = {0, 1, 1};
    const uint8_t r = UNICODE_BIDI_R, first = 1;
    SAME_WITH_NULL("line order, no line", unicode_bidi_line_order(NONE(uint8_t), 0, NONE(uint8_t), 0, &none, 0, 0, 0, NONE(size_t), 0, NONE(size_t), 0));
    SAME_WITH_NULL("line order, order alone", unicode_bidi_line_order(&r, 1, &first, 1, &one, 0, 1, 0, &index, 1, NONE(size_t), 0));
    SAME_WITH_NULL("line order, places alone", unicode_bidi_line_order(&r, 1, &first, 1, &one, 0, 1, 0, NONE(size_t), 0, &index, 1));
    SAME_WITH_NULL("line order, no classes", unicode_bidi_line_order(NONE(uint8_t), 0, &first, 1, &one, 0, 1, 0, NONE(size_t), 0, NONE(size_t), 0));
    SAME_WITH_NULL("line order, no levels", unicode_bidi_line_order(&r, 1, NONE(uint8_t), 0, &one, 0, 1, 0, NONE(size_t), 0, NONE(size_t), 0));
    SAME_WITH_NULL("places, no order", unicode_bidi_places(NONE(size_t), 0, &index, 1));
    SAME_WITH_NULL("places, no places", unicode_bidi_places(&shown, 1, NONE(size_t), 0));
}

/* A text in the three encodings, by each of these calls. */
static void whole_at_random(void) {
    static const uint32_t dropped[] = {0, UNICODE_BIDI_DROP_CONTROLS, UNICODE_BIDI_DROP_BOUNDARY_NEUTRALS};
    text t;
    memset(&t, 0, sizeof t);
    for (size_t n = below(24); t.len < n;) push(&t, PALETTE[below(COUNT(PALETTE))]);
    uint8_t base = (uint8_t[]){AUTO, UNICODE_BIDI_AUTO_LTR, UNICODE_BIDI_AUTO_RTL, below(126)}[below(4)], split = below(3);
    uint32_t flags = below(3) + (below(2) ? UNICODE_BIDI_MIRROR : 0) + dropped[below(3)];
    for (int e = UTF8; e <= UTF32; e++) {
        see_displayed_text("at random", e, &t, base, split, flags, NULL);
        see_paragraphs("at random", e, &t, base, split);
    }
    uint8_t c[24], l[24];
    unicode_bidi_paragraph p[1];
    if (analyse(UTF32, false, t.in[UTF32], t.len, base, WHOLE, c, t.len, l, t.len, p, 1) != 1) FAIL("one paragraph");
    size_t a = below(t.len + 1), b = a + below(t.len - a + 1);
    see_line_order("at random", &t, c, l, p, a, b);
}

/* Any bytes and sizes: the answer is a count or a fault, and after a fault nothing is written. */
static void whole_calls_at_random(void) {
    static unsigned char seed[1024];
    for (size_t i = 0; i < sizeof seed; i++) seed[i] = below(3) ? below(24) : next() >> 56;
    int e = below(3);
    size_t n = below(24), shown = 99, characters = 99, rooms[4];
    for (int i = 0; i < 4; i++) rooms[i] = below(3) ? near(i ? n : 2 * n) : 0;
    uint8_t base = below(2) ? AUTO : next() >> 56, split = below(9) ? below(3) : next() >> 56;
    uint32_t flags = below(8) ? below(24) : (uint32_t)next() >> below(32);
    const void *in = copied(texts, seed, n * SIZES[e]);
    displayed_line d = displayed_buffers(e, rooms[0], rooms[1], rooms[2], 0x77);
    uint8_t *l = buffer(levels_at, rooms[3], 0x77);
    int64_t found = display_text(e, in, n, base, split, flags, l, rooms[3], &d, &shown, &characters);
    if (found < 0) see_undisplayed(e, &d, shown, characters, "at random");
    if (found < 0 && !all_are(l, rooms[3], 0x77)) FAIL("a fault of display_text that wrote levels");
    if (found < UNICODE_BIDI_BAD_FLAGS || found == UNICODE_BIDI_NO_MEMORY) FAIL("display_text at random: %lld", (long long)found);
    watch_displayed(e, &d, "display_text"), watch(levels_at, rooms[3], "display_text");
    uint8_t *c = copied(classes_at, seed + 512, rooms[1]);
    size_t nl = below(8) ? rooms[1] : rooms[2], start = place(n), end = place(n), *o = copied(order_at, seed, rooms[2] * sizeof *o), *places = copied(places_at, seed, rooms[3] * sizeof *o);
    l = copied(levels_at, seed + 600, nl);
    const unicode_bidi_paragraph p = {below(3) ? 0 : place(n), below(3) ? rooms[1] : place(n), below(9) ? below(127) : next() >> 56};
    found = unicode_bidi_line_order(c, rooms[1], l, nl, &p, start, end, below(4) ? below(2) : flags, o, rooms[2], places, rooms[3]);
    unchanged(found, order_at, seed, rooms[2] * sizeof *o, "line_order"), unchanged(found, places_at, seed, rooms[3] * sizeof *o, "line_order");
    unicode_bidi_paragraph *ps = copied(rows_at, seed, rooms[2] * sizeof *ps);
    c = copied(classes_at, seed, rooms[3]);
    found = find_paragraphs(e, in, n, base, split, c, rooms[3], ps, rooms[2]);
    unchanged(found, classes_at, seed, rooms[3], "paragraphs"), unchanged(found, rows_at, seed, rooms[2] * sizeof *ps, "paragraphs");
    o = copied(order_at, seed, rooms[2] * sizeof *o);
    for (size_t i = 0; i < rooms[2]; i++) o[i] = near(below(n + 1));
    places = buffer(places_at, n * sizeof *o, 0x77);
    expect("places at random", unicode_bidi_places(o, rooms[2], places, n), n);
    for (size_t j = 0; j < n; j++) {
        size_t i = 0;
        while (i < rooms[2] && o[i] != j) i++;
        if (places[j] != (i < rooms[2] ? i : UNICODE_BIDI_NOWHERE)) FAIL("a place at random");
    }
    watch(places_at, n * sizeof *o, "places");
}
