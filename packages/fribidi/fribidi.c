/* FriBidi's calls for bidirectional text, over unicode_bidi: types, brackets, embedding levels, reordering, mirroring,
 * marks, maps, and log2vis. A shared object of this file is put before libfribidi.so.0, by the order of linking or by
 * LD_PRELOAD. Alone, it serves programs that need no joining, no shaping and no character sets.
 *
 * The names, the arguments and the numbers are those of FriBidi's documented interface (version 1.0). docs/C.md lists what
 * differs. Any number of threads may make calls at the same time, except those of the two settings. */
#include <unicode_bidi.h>

#include <stdbool.h>
#include <stdlib.h>
#include <string.h>

#define EXPORTED __attribute__((visibility("default")))

/* ---- FriBidi's types and numbers ---- */

typedef uint32_t FriBidiChar;
typedef int FriBidiStrIndex;
typedef int fribidi_boolean;
typedef uint32_t FriBidiFlags;
typedef uint32_t FriBidiCharType;
typedef uint32_t FriBidiParType;
typedef uint32_t FriBidiBracketType;
typedef signed char FriBidiLevel;

enum { FLAG_REORDER_NSM = 0x2 };

/* The bits of which character types are made. */
enum {
    RIGHT_TO_LEFT = 0x1,
    ARABIC = 0x2,
    STRONG = 0x10,
    WEAK = 0x20,
    NEUTRAL = 0x40,
    LETTER = 0x100,
    NUMBER = 0x200,
    SEPARATES_NUMBERS = 0x400,
    SPACE = 0x800,
    EXPLICIT = 0x1000,
    SEPARATOR = 0x2000,
    OVERRIDE = 0x4000,
    ISOLATE = 0x8000,
    OF_ES = 0x10000,
    OF_ET = 0x20000,
    OF_CS = 0x40000,
    OF_NSM = 0x80000,
    OF_BN = 0x100000,
    OF_B = 0x200000,
    OF_S = 0x400000,
    OF_WS = 0x800000,
    FIRST = 0x2000000,
};

enum {
    TYPE_LTR = STRONG | LETTER,
    TYPE_RTL = STRONG | LETTER | RIGHT_TO_LEFT,
    TYPE_ON = NEUTRAL,
    TYPE_WLTR = WEAK,
    TYPE_WRTL = WEAK | RIGHT_TO_LEFT,
    TYPE_NSM = WEAK | OF_NSM,
};

/* The type of each class. */
static const struct {
    FriBidiCharType type;
    const char *name;
} TYPES[] = {
    [UNICODE_BIDI_L] = {TYPE_LTR, "LTR"},
    [UNICODE_BIDI_R] = {TYPE_RTL, "RTL"},
    [UNICODE_BIDI_AL] = {TYPE_RTL | ARABIC, "AL"},
    [UNICODE_BIDI_EN] = {WEAK | NUMBER, "EN"},
    [UNICODE_BIDI_ES] = {WEAK | SEPARATES_NUMBERS | OF_ES, "ES"},
    [UNICODE_BIDI_ET] = {WEAK | SEPARATES_NUMBERS | OF_ET, "ET"},
    [UNICODE_BIDI_AN] = {WEAK | NUMBER | ARABIC, "AN"},
    [UNICODE_BIDI_CS] = {WEAK | SEPARATES_NUMBERS | OF_CS, "CS"},
    [UNICODE_BIDI_NSM] = {TYPE_NSM, "NSM"},
    [UNICODE_BIDI_BN] = {WEAK | SPACE | OF_BN, "BN"},
    [UNICODE_BIDI_B] = {NEUTRAL | SPACE | SEPARATOR | OF_B, "BS"},
    [UNICODE_BIDI_S] = {NEUTRAL | SPACE | SEPARATOR | OF_S, "SS"},
    [UNICODE_BIDI_WS] = {NEUTRAL | SPACE | OF_WS, "WS"},
    [UNICODE_BIDI_ON] = {TYPE_ON, "ON"},
    [UNICODE_BIDI_LRE] = {STRONG | EXPLICIT, "LRE"},
    [UNICODE_BIDI_LRO] = {STRONG | EXPLICIT | OVERRIDE, "LRO"},
    [UNICODE_BIDI_RLE] = {STRONG | EXPLICIT | RIGHT_TO_LEFT, "RLE"},
    [UNICODE_BIDI_RLO] = {STRONG | EXPLICIT | OVERRIDE | RIGHT_TO_LEFT, "RLO"},
    [UNICODE_BIDI_PDF] = {WEAK | EXPLICIT, "PDF"},
    [UNICODE_BIDI_LRI] = {NEUTRAL | ISOLATE, "LRI"},
    [UNICODE_BIDI_RLI] = {NEUTRAL | ISOLATE | RIGHT_TO_LEFT, "RLI"},
    [UNICODE_BIDI_FSI] = {NEUTRAL | ISOLATE | FIRST, "FSI"},
    [UNICODE_BIDI_PDI] = {NEUTRAL | WEAK | ISOLATE, "PDI"},
};
enum { CLASSES = sizeof TYPES / sizeof *TYPES };

/* Returns the class of a type, or ON for a number that is no type of a character. */
static uint8_t class_of(FriBidiCharType type) {
    for (uint8_t i = 0; i < CLASSES; i++)
        if (TYPES[i].type == type) return i;
    return UNICODE_BIDI_ON;
}

static bool is_rtl(FriBidiLevel level) { return level & 1; }

/* Whether a type is one that L1 resets with the white space before a separator or at the end of a line. */
static bool is_blank(FriBidiCharType type) { return type & (EXPLICIT | ISOLATE | OF_BN | OF_WS); }

/* ---- characters ---- */

EXPORTED FriBidiCharType fribidi_get_bidi_type(FriBidiChar ch) {
    int64_t class = unicode_bidi_class_of(ch);
    return TYPES[class < 0 ? UNICODE_BIDI_L : class].type;
}

EXPORTED void fribidi_get_bidi_types(const FriBidiChar *str, FriBidiStrIndex len, FriBidiCharType *types) {
    for (FriBidiStrIndex i = 0; i < len; i++) types[i] = fribidi_get_bidi_type(str[i]);
}

EXPORTED const char *fribidi_get_bidi_type_name(FriBidiCharType type) {
    for (int i = 0; i < CLASSES; i++)
        if (TYPES[i].type == type) return TYPES[i].name;
    return type == TYPE_WLTR ? "WLTR" : type == TYPE_WRTL ? "WRTL" : "?";
}

EXPORTED FriBidiBracketType fribidi_get_bracket(FriBidiChar ch) {
    int64_t bracket = unicode_bidi_bracket_of(ch);
    return bracket < 0 ? 0 : (FriBidiBracketType)bracket;
}

EXPORTED void fribidi_get_bracket_types(const FriBidiChar *str, FriBidiStrIndex len, const FriBidiCharType *types,
                                        FriBidiBracketType *brackets) {
    for (FriBidiStrIndex i = 0; i < len; i++) brackets[i] = types[i] == TYPE_ON ? fribidi_get_bracket(str[i]) : 0;
}

EXPORTED fribidi_boolean fribidi_get_mirror_char(FriBidiChar ch, FriBidiChar *mirrored) {
    int64_t partner = unicode_bidi_mirrored(ch);
    bool is_mirrored = partner >= 0 && partner != (int64_t)ch;
    if (mirrored) *mirrored = is_mirrored ? (FriBidiChar)partner : ch;
    return is_mirrored;
}

EXPORTED void fribidi_shape_mirroring(const FriBidiLevel *levels, FriBidiStrIndex len, FriBidiChar *str) {
    for (FriBidiStrIndex i = 0; i < len; i++)
        if (is_rtl(levels[i])) fribidi_get_mirror_char(str[i], &str[i]);
}

/* ---- paragraphs ---- */

EXPORTED FriBidiParType fribidi_get_par_direction(const FriBidiCharType *types, FriBidiStrIndex len) {
    size_t isolates = 0;
    for (FriBidiStrIndex i = 0; i < len; i++) {
        FriBidiCharType type = types[i];
        if (type == TYPES[UNICODE_BIDI_PDI].type) isolates -= isolates > 0;
        else if (type & ISOLATE) isolates++;
        else if (isolates == 0 && (type & LETTER)) return type & RIGHT_TO_LEFT ? TYPE_RTL : TYPE_LTR;
    }
    return TYPE_ON;
}

/* The base level for the library, by the direction that the caller asks for. */
static uint8_t base_of(FriBidiParType direction) {
    bool right = direction & RIGHT_TO_LEFT;
    if (direction & STRONG) return right;
    return right ? UNICODE_BIDI_AUTO_RTL : UNICODE_BIDI_AUTO_LTR;
}

/* Gives separators, and the blanks before them and at the end, the level of the paragraph (L1). */
static void reset_blanks(const FriBidiCharType *types, FriBidiStrIndex len, uint8_t level, FriBidiLevel *levels) {
    bool resets = true;
    for (FriBidiStrIndex i = len; i-- > 0;) {
        resets = (types[i] & SEPARATOR) || (resets && is_blank(types[i]));
        if (resets) levels[i] = (FriBidiLevel)level;
    }
}

EXPORTED FriBidiLevel fribidi_get_par_embedding_levels_ex(const FriBidiCharType *types, const FriBidiBracketType *brackets,
                                                          FriBidiStrIndex len, FriBidiParType *direction, FriBidiLevel *levels) {
    if (len <= 0) return 1;
    size_t count = (size_t)len;
    uint8_t *classes = malloc(2 * count);
    if (!classes) return 0;
    for (size_t i = 0; i < count; i++) classes[i] = class_of(types[i]);
    unicode_bidi_paragraph paragraph;
    int64_t found = unicode_bidi_analyse_classes(classes, count, brackets, brackets ? count : 0, base_of(*direction),
                                                 UNICODE_BIDI_ONE_PARAGRAPH, classes + count, count, (uint8_t *)levels, count,
                                                 &paragraph, 1);
    free(classes);
    if (found < 0) return 0;
    FriBidiLevel most = 0;
    for (size_t i = 0; i < count; i++) most = levels[i] > most ? levels[i] : most;
    reset_blanks(types, len, paragraph.level, levels);
    /* A weak direction stays if no character decides. */
    if (!(*direction & STRONG) && fribidi_get_par_direction(types, len) != TYPE_ON)
        *direction = paragraph.level ? TYPE_RTL : TYPE_LTR;
    return (FriBidiLevel)(most + 1);
}

/* ---- lines ---- */

/* Reverses characters and the entries of a map from `start` up to `end`. Either may be null. */
static void reverse(FriBidiChar *str, FriBidiStrIndex *map, FriBidiStrIndex start, FriBidiStrIndex end) {
    for (; start + 1 < end; start++, end--) {
        if (str) { FriBidiChar c = str[start]; str[start] = str[end - 1]; str[end - 1] = c; }
        if (map) { FriBidiStrIndex m = map[start]; map[start] = map[end - 1]; map[end - 1] = m; }
    }
}

/* Moves nonspacing marks at odd levels before their base, so that they follow it after L2 (L3). */
static void move_marks(const FriBidiCharType *types, FriBidiStrIndex off, FriBidiStrIndex end, const FriBidiLevel *levels,
                       FriBidiChar *str, FriBidiStrIndex *map) {
    for (FriBidiStrIndex i = end; i-- > off;) {
        if (types[i] != TYPE_NSM || !is_rtl(levels[i])) continue;
        FriBidiStrIndex base = i;
        while (base > off && levels[base - 1] == levels[i] && (types[base] & (EXPLICIT | OF_BN | OF_NSM))) base--;
        reverse(str, map, base, i + 1);
        i = base;
    }
}

/* Puts a copy of the entries of the line in visual order. */
static bool permute(const size_t *order, size_t count, FriBidiChar *str, FriBidiStrIndex *map) {
    FriBidiChar *old = malloc(count * sizeof *old);
    if (!old) return false;
    if (str) {
        memcpy(old, str, count * sizeof *str);
        for (size_t i = 0; i < count; i++) str[i] = old[order[i]];
    }
    if (map) {
        memcpy(old, map, count * sizeof *map);
        for (size_t i = 0; i < count; i++) memcpy(&map[i], &old[order[i]], sizeof *map);
    }
    free(old);
    return true;
}

EXPORTED FriBidiLevel fribidi_reorder_line(FriBidiFlags flags, const FriBidiCharType *types, FriBidiStrIndex len,
                                           FriBidiStrIndex off, FriBidiParType direction, FriBidiLevel *levels,
                                           FriBidiChar *str, FriBidiStrIndex *map) {
    if (len <= 0) return 1;
    size_t count = (size_t)len;
    FriBidiStrIndex end = off + len;
    for (FriBidiStrIndex i = end; i-- > off && is_blank(types[i]);) levels[i] = direction & RIGHT_TO_LEFT;
    FriBidiLevel most = 0;
    for (FriBidiStrIndex i = off; i < end; i++) most = levels[i] > most ? levels[i] : most;
    if (!str && !map) return (FriBidiLevel)(most + 1);
    size_t *order = malloc(count * sizeof *order);
    bool done = order && unicode_bidi_reorder_visual((const uint8_t *)levels + off, count, order, count) >= 0;
    if (done) {
        if (flags & FLAG_REORDER_NSM) move_marks(types, off, end, levels, str, map);
        done = permute(order, count, str ? str + off : NULL, map ? map + off : NULL);
    }
    free(order);
    return done ? (FriBidiLevel)(most + 1) : 0;
}

/* ---- marks ---- */

static bool is_mark(FriBidiChar ch) {
    return ch == 0x200E || ch == 0x200F || (fribidi_get_bidi_type(ch) & (EXPLICIT | ISOLATE | OF_BN));
}

EXPORTED FriBidiStrIndex fribidi_remove_bidi_marks(FriBidiChar *str, FriBidiStrIndex len, FriBidiStrIndex *to_this,
                                                   FriBidiStrIndex *from_this, FriBidiLevel *levels) {
    if (len <= 0) return 0;
    FriBidiStrIndex *from = from_this;
    if (to_this && !from) {
        from = malloc((size_t)len * sizeof *from);
        if (!from) return -1;
        for (FriBidiStrIndex i = 0; i < len; i++) from[to_this[i]] = i;
    }
    FriBidiStrIndex kept = 0;
    for (FriBidiStrIndex i = 0; i < len; i++) {
        if (is_mark(str[i])) continue;
        str[kept] = str[i];
        if (levels) levels[kept] = levels[i];
        if (from) from[kept] = from[i];
        kept++;
    }
    if (to_this) {
        for (FriBidiStrIndex i = 0; i < len; i++) to_this[i] = -1;
        for (FriBidiStrIndex i = 0; i < kept; i++) to_this[from[i]] = i;
    }
    if (from != from_this) free(from);
    return kept;
}

/* ---- a text in one call, and FriBidi's older names ---- */

/* Settings that only these four calls read. FriBidi 1.0 keeps them apart from log2vis too: it always mirrors characters and
 * moves marks, whatever these settings are. */
static fribidi_boolean mirrors = true, moves_marks = true;

EXPORTED fribidi_boolean fribidi_set_mirroring(fribidi_boolean state) { return mirrors = state; }

EXPORTED fribidi_boolean fribidi_mirroring_status(void) { return mirrors; }

EXPORTED fribidi_boolean fribidi_set_reorder_nsm(fribidi_boolean state) { return moves_marks = state; }

EXPORTED fribidi_boolean fribidi_reorder_nsm_status(void) { return moves_marks; }

/* The displayed text and the map of a line that is a whole text, given the types and the levels of its characters. */
static FriBidiLevel show(const FriBidiChar *str, const FriBidiCharType *types, FriBidiStrIndex len, FriBidiParType direction,
                         FriBidiLevel *levels, FriBidiChar *visual, FriBidiStrIndex *map) {
    if (visual) {
        memmove(visual, str, (size_t)len * sizeof *str);
        fribidi_shape_mirroring(levels, len, visual);
    }
    if (map)
        for (FriBidiStrIndex i = 0; i < len; i++) map[i] = i;
    return fribidi_reorder_line(FLAG_REORDER_NSM, types, len, 0, direction, levels, visual, map);
}

EXPORTED FriBidiLevel fribidi_log2vis(const FriBidiChar *str, FriBidiStrIndex len, FriBidiParType *direction, FriBidiChar *visual,
                                      FriBidiStrIndex *l_to_v, FriBidiStrIndex *v_to_l, FriBidiLevel *levels) {
    if (len <= 0) return 1;
    size_t count = (size_t)len;
    FriBidiCharType *types = malloc(count * sizeof *types);
    FriBidiBracketType *brackets = malloc(count * sizeof *brackets);
    FriBidiLevel *own_levels = levels ? levels : malloc(count);
    FriBidiStrIndex *own_map = v_to_l ? v_to_l : l_to_v ? malloc(count * sizeof *own_map) : NULL;
    FriBidiLevel most = 0;
    if (types && brackets && own_levels && (own_map || !l_to_v)) {
        fribidi_get_bidi_types(str, len, types);
        fribidi_get_bracket_types(str, len, types, brackets);
        most = fribidi_get_par_embedding_levels_ex(types, brackets, len, direction, own_levels);
        if (most && (visual || own_map) && !show(str, types, len, *direction, own_levels, visual, own_map)) most = 0;
        if (most && l_to_v)
            for (FriBidiStrIndex i = 0; i < len; i++) l_to_v[own_map[i]] = i;
    }
    free(types);
    free(brackets);
    if (own_levels != levels) free(own_levels);
    if (own_map != v_to_l) free(own_map);
    return most;
}

EXPORTED FriBidiLevel fribidi_get_par_embedding_levels(const FriBidiCharType *types, FriBidiStrIndex len,
                                                       FriBidiParType *direction, FriBidiLevel *levels) {
    return fribidi_get_par_embedding_levels_ex(types, NULL, len, direction, levels);
}

EXPORTED FriBidiLevel fribidi_log2vis_get_embedding_levels(const FriBidiCharType *types, FriBidiStrIndex len,
                                                           FriBidiParType *direction, FriBidiLevel *levels) {
    return fribidi_get_par_embedding_levels_ex(types, NULL, len, direction, levels);
}

EXPORTED FriBidiCharType fribidi_get_type(FriBidiChar ch) { return fribidi_get_bidi_type(ch); }

EXPORTED FriBidiCharType fribidi_get_type_internal(FriBidiChar ch) { return fribidi_get_bidi_type(ch); }
