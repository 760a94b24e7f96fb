/* A null pointer with length 0, for each argument that has a length: the result is that of a pointer to a buffer of
 * length 0, and nothing is read or written through it. Included by callers.c. */

static long nulls_seen;

/* Compares the answer of a call with null pointers with that of the same call with other ones. */
#define SAME_WITH_NULL(what, call)                                                     \
    do {                                                                               \
        int64_t found, wanted;                                                         \
        { const bool null = true; found = (call); }                                    \
        { const bool null = false; wanted = (call); }                                  \
        expect(what, found, wanted);                                                   \
        ++nulls_seen;                                                                  \
    } while (0)

/* Null, or a place with room for nothing. */
#define NONE(type) ((type *)(null ? NULL : texts.end))

static void try_nulls_of_texts(int e) {
    uint8_t two[2];
    unicode_bidi_paragraph paragraph;
    const void *a = e == UTF8 ? (const void *)"a" : e == UTF16 ? (const void *)(const uint16_t[]){'a'} : (const void *)(const uint32_t[]){'a'};
    for (int tables = 0; tables < 2; ++tables) {
        static const source empty;
        const source *kept = now;
        now = &empty;
        for (uint8_t split = WHOLE; split <= TOGETHER; ++split) {
            SAME_WITH_NULL("analyse, no text", analyse(e, tables, NONE(void), 0, AUTO, split, NONE(uint8_t), 0, NONE(uint8_t), 0, NONE(unicode_bidi_paragraph), 0));
            SAME_WITH_NULL("analyse, no text, a paragraph", analyse(e, tables, NONE(void), 0, AUTO, split, NONE(uint8_t), 0, NONE(uint8_t), 0, &paragraph, 1));
        }
        SAME_WITH_NULL("analyse, no paragraphs", analyse(e, tables, a, 1, AUTO, SPLIT, two, 1, two + 1, 1, NONE(unicode_bidi_paragraph), 0));
        SAME_WITH_NULL("analyse, no room for classes", analyse(e, tables, a, 1, AUTO, SPLIT, NONE(uint8_t), 0, two, 1, &paragraph, 1));
        SAME_WITH_NULL("analyse, no room for levels", analyse(e, tables, a, 1, AUTO, SPLIT, two, 1, NONE(uint8_t), 0, &paragraph, 1));
        SAME_WITH_NULL("base direction, no text", direction(e, tables, NONE(void), 0, 1));
        now = kept;
    }
    SAME_WITH_NULL("first direction, no text", first_direction(e, NONE(void), 0, 1));
    SAME_WITH_NULL("classes, no text", classes_of(e, NONE(void), 0, NONE(uint8_t), 0));
    SAME_WITH_NULL("classes, no room", classes_of(e, a, 1, NONE(uint8_t), 0));
    SAME_WITH_NULL("brackets, no text", brackets_of(e, NONE(void), 0, NONE(uint32_t), 0));
    SAME_WITH_NULL("brackets, no room", brackets_of(e, a, 1, NONE(uint32_t), 0));
}

/* Calls without tables, or with one of the two. */
static void try_nulls_of_tables(void) {
    const unicode_bidi_class_range range = {0x5D0, 0x5EA, UNICODE_BIDI_R};
    const unicode_bidi_bracket_pair pair = {'(', ')', '('};
    const uint8_t alef[] = {0xD7, 0x90};
    uint8_t classes[2], levels[2];
    SAME_WITH_NULL("no ranges", unicode_bidi_analyse_by_tables_utf8(NONE(unicode_bidi_class_range), 0, &pair, 1, alef, 2, AUTO, SPLIT, classes, 2, levels, 2, NONE(unicode_bidi_paragraph), 0));
    SAME_WITH_NULL("no pairs", unicode_bidi_analyse_by_tables_utf8(&range, 1, NONE(unicode_bidi_bracket_pair), 0, alef, 2, AUTO, SPLIT, classes, 2, levels, 2, NONE(unicode_bidi_paragraph), 0));
    SAME_WITH_NULL("direction, no ranges", unicode_bidi_base_direction_by_tables_utf8(NONE(unicode_bidi_class_range), 0, &pair, 1, alef, 2, 1));
    SAME_WITH_NULL("direction, no pairs", unicode_bidi_base_direction_by_tables_utf8(&range, 1, NONE(unicode_bidi_bracket_pair), 0, alef, 2, 1));
}

static void try_nulls_of_lines(int e) {
    const unicode_bidi_paragraph none = {0, 0, 0}, one = {0, 1, 1};
    const void *a = e == UTF8 ? (const void *)"a" : e == UTF16 ? (const void *)(const uint16_t[]){'a'} : (const void *)(const uint32_t[]){'a'};
    const uint8_t class = UNICODE_BIDI_L, level = 2;
    uint32_t unit;
    uint8_t level_out;
    unicode_bidi_run run;
    size_t order, characters;
    SAME_WITH_NULL("map, no text", line_map(e, NONE(void), 0, NONE(uint8_t), 0, NONE(uint8_t), 0, &none, 0, 0, NONE(size_t), 0));
    SAME_WITH_NULL("map, no room", line_map(e, a, 1, &class, 1, &level, 1, &one, 0, 1, NONE(size_t), 0));
    SAME_WITH_NULL("map, a text alone", line_map(e, a, 1, NONE(uint8_t), 0, NONE(uint8_t), 0, &none, 0, 0, &order, 1));
    SAME_WITH_NULL("map, no classes", line_map(e, a, 1, NONE(uint8_t), 0, &level, 1, &one, 0, 1, &order, 1));
    SAME_WITH_NULL("map, no levels", line_map(e, a, 1, &class, 1, NONE(uint8_t), 0, &one, 0, 1, &order, 1));
    SAME_WITH_NULL("map, entries alone", line_map(e, NONE(void), 0, &class, 1, &level, 1, &one, 0, 1, &order, 1));
    SAME_WITH_NULL("text, no text", reorder_line(e, NONE(void), 0, NONE(uint8_t), 0, NONE(uint8_t), 0, &none, 0, 0, NONE(void), 0));
    SAME_WITH_NULL("text, no room", reorder_line(e, a, 1, &class, 1, &level, 1, &one, 0, 1, NONE(void), 0));
    SAME_WITH_NULL("text, entries alone", reorder_line(e, NONE(void), 0, &class, 1, &level, 1, &one, 0, 1, &unit, 1));
    SAME_WITH_NULL("line, no text", show_line(e, NONE(void), 0, NONE(uint8_t), 0, NONE(uint8_t), 0, &none, 0, 0,
        &(shown_line){0, 0, 0, 0, NONE(uint8_t), NONE(unicode_bidi_run), NONE(size_t), NONE(void)}, &characters));
    SAME_WITH_NULL("line, no buffers", show_line(e, a, 1, &class, 1, &level, 1, &one, 0, 1,
        &(shown_line){0, 0, 0, 0, NONE(uint8_t), NONE(unicode_bidi_run), NONE(size_t), NONE(void)}, &characters));
    SAME_WITH_NULL("line, levels alone", show_line(e, a, 1, &class, 1, &level, 1, &one, 0, 1,
        &(shown_line){1, 0, 0, 0, &level_out, NONE(unicode_bidi_run), NONE(size_t), NONE(void)}, &characters));
    SAME_WITH_NULL("line, runs alone", show_line(e, a, 1, &class, 1, &level, 1, &one, 0, 1,
        &(shown_line){0, 1, 0, 0, NONE(uint8_t), &run, NONE(size_t), NONE(void)}, &characters));
    SAME_WITH_NULL("line, order alone", show_line(e, a, 1, &class, 1, &level, 1, &one, 0, 1,
        &(shown_line){0, 0, 1, 0, NONE(uint8_t), NONE(unicode_bidi_run), &order, NONE(void)}, &characters));
    SAME_WITH_NULL("line, text alone", show_line(e, a, 1, &class, 1, &level, 1, &one, 0, 1,
        &(shown_line){0, 0, 0, 1, NONE(uint8_t), NONE(unicode_bidi_run), NONE(size_t), &unit}, &characters));
}

/* Both tables null, in each encoding. */
static void try_nulls_without_tables(int e) {
    const void *a = e == UTF8 ? (const void *)"a" : e == UTF16 ? (const void *)(const uint16_t[]){'a'} : (const void *)(const uint32_t[]){'a'};
    uint8_t classes[1], levels[1];
#define BOTH NONE(unicode_bidi_class_range), 0, NONE(unicode_bidi_bracket_pair), 0
#define ANALYSED(encoding) unicode_bidi_analyse_by_tables_##encoding(BOTH, a, 1, AUTO, SPLIT, classes, 1, levels, 1, NONE(unicode_bidi_paragraph), 0)
#define DIRECTED(encoding) unicode_bidi_base_direction_by_tables_##encoding(BOTH, a, 1, 1)
    SAME_WITH_NULL("no tables", e == UTF8 ? ANALYSED(utf8) : e == UTF16 ? ANALYSED(utf16) : ANALYSED(utf32));
    SAME_WITH_NULL("direction, no tables", e == UTF8 ? DIRECTED(utf8) : e == UTF16 ? DIRECTED(utf16) : DIRECTED(utf32));
}

static void try_nulls_of_displayed_lines(int e) {
    const unicode_bidi_paragraph none = {0, 0, 0}, one = {0, 1, 1};
    const void *a = e == UTF8 ? (const void *)"a" : e == UTF16 ? (const void *)(const uint16_t[]){'a'} : (const void *)(const uint32_t[]){'a'};
    const uint8_t class = UNICODE_BIDI_L, level = 2;
    const uint32_t flags = UNICODE_BIDI_MOVE_CLUSTERS + UNICODE_BIDI_MIRROR + UNICODE_BIDI_DROP_CONTROLS;
    uint32_t units[2];
    size_t index, shown, characters;
    SAME_WITH_NULL("displayed, no text", display_line(e, NONE(void), 0, NONE(uint8_t), 0, NONE(uint8_t), 0, &none, 0, 0, flags,
        &(displayed_line){0, 0, 0, NONE(void), NONE(size_t), NONE(size_t)}, &shown, &characters));
    SAME_WITH_NULL("displayed, no buffers", display_line(e, a, 1, &class, 1, &level, 1, &one, 0, 1, flags,
        &(displayed_line){0, 0, 0, NONE(void), NONE(size_t), NONE(size_t)}, &shown, &characters));
    SAME_WITH_NULL("displayed, text alone", display_line(e, a, 1, &class, 1, &level, 1, &one, 0, 1, flags,
        &(displayed_line){2, 0, 0, units, NONE(size_t), NONE(size_t)}, &shown, &characters));
    SAME_WITH_NULL("displayed, order alone", display_line(e, a, 1, &class, 1, &level, 1, &one, 0, 1, flags,
        &(displayed_line){0, 1, 0, NONE(void), &index, NONE(size_t)}, &shown, &characters));
    SAME_WITH_NULL("displayed, places alone", display_line(e, a, 1, &class, 1, &level, 1, &one, 0, 1, flags,
        &(displayed_line){0, 0, 1, NONE(void), NONE(size_t), &index}, &shown, &characters));
}

static void try_nulls_of_classes(void) {
    const uint8_t class = UNICODE_BIDI_R;
    const uint32_t bracket = 0;
    uint8_t stored, level;
    unicode_bidi_paragraph paragraph;
    SAME_WITH_NULL("classes alone, none", unicode_bidi_analyse_classes(NONE(uint8_t), 0, NONE(uint32_t), 0, AUTO, WHOLE, NONE(uint8_t), 0, NONE(uint8_t), 0, NONE(unicode_bidi_paragraph), 0));
    SAME_WITH_NULL("classes alone, no brackets", unicode_bidi_analyse_classes(&class, 1, NONE(uint32_t), 0, AUTO, WHOLE, &stored, 1, &level, 1, NONE(unicode_bidi_paragraph), 0));
    SAME_WITH_NULL("classes alone, brackets only", unicode_bidi_analyse_classes(NONE(uint8_t), 0, &bracket, 1, AUTO, WHOLE, &stored, 1, &level, 1, &paragraph, 1));
    SAME_WITH_NULL("classes alone, no room for classes", unicode_bidi_analyse_classes(&class, 1, &bracket, 1, AUTO, WHOLE, NONE(uint8_t), 0, &level, 1, &paragraph, 1));
    SAME_WITH_NULL("classes alone, no room for levels", unicode_bidi_analyse_classes(&class, 1, &bracket, 1, AUTO, WHOLE, &stored, 1, NONE(uint8_t), 0, &paragraph, 1));
}

static void try_nulls(void) {
    const unicode_bidi_paragraph none = {0, 0, 0}, one = {0, 1, 1};
    const uint8_t class = UNICODE_BIDI_L, level = 2;
    uint8_t level_out;
    unicode_bidi_run run;
    size_t order;
    for (int e = UTF8; e <= UTF32; ++e) {
        try_nulls_of_texts(e);
        try_nulls_of_lines(e);
        try_nulls_without_tables(e);
        try_nulls_of_displayed_lines(e);
    }
    try_nulls_of_tables();
    try_nulls_of_classes();
    SAME_WITH_NULL("direction of classes", unicode_bidi_base_direction_of_classes(NONE(uint8_t), 0, 1));
    SAME_WITH_NULL("levels, no line", unicode_bidi_line_levels(NONE(uint8_t), 0, NONE(uint8_t), 0, &none, 0, 0, NONE(uint8_t), 0));
    SAME_WITH_NULL("levels, no room", unicode_bidi_line_levels(&class, 1, &level, 1, &one, 0, 1, NONE(uint8_t), 0));
    SAME_WITH_NULL("levels, no classes", unicode_bidi_line_levels(NONE(uint8_t), 0, &level, 1, &one, 0, 1, &level_out, 1));
    SAME_WITH_NULL("levels, no levels", unicode_bidi_line_levels(&class, 1, NONE(uint8_t), 0, &one, 0, 1, &level_out, 1));
    SAME_WITH_NULL("runs, no line", unicode_bidi_line_runs(NONE(uint8_t), 0, NONE(uint8_t), 0, &none, 0, 0, NONE(unicode_bidi_run), 0));
    SAME_WITH_NULL("runs, counted", unicode_bidi_line_runs(&class, 1, &level, 1, &one, 0, 1, NONE(unicode_bidi_run), 0));
    SAME_WITH_NULL("runs, no classes", unicode_bidi_line_runs(NONE(uint8_t), 0, &level, 1, &one, 0, 1, &run, 1));
    SAME_WITH_NULL("runs, no levels", unicode_bidi_line_runs(&class, 1, NONE(uint8_t), 0, &one, 0, 1, &run, 1));
    SAME_WITH_NULL("order of no items", unicode_bidi_reorder_visual(NONE(uint8_t), 0, NONE(size_t), 0));
    SAME_WITH_NULL("order, no room", unicode_bidi_reorder_visual(&level, 1, NONE(size_t), 0));
    SAME_WITH_NULL("order, no levels", unicode_bidi_reorder_visual(NONE(uint8_t), 0, &order, 1));
}
