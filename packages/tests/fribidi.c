/* Compares the calls of packages/fribidi with FriBidi's own, on random texts: fribidi OURS THEIRS [TEXTS [SEED]]
 * Or writes random lines without brackets in UTF-8: fribidi --lines SEED
 * OURS and THEIRS are shared objects. The characters have the same class and bracket in both versions of Unicode. FriBidi
 * 1.0.8 gives levels that are not those of UAX #9 to some texts with isolates or brackets. So there are no isolate controls
 * here, and the levels are those without brackets. */
#include <dlfcn.h>
#include <fribidi.h>
#include <stdint.h>
#include <stdio.h>
#include <stdlib.h>
#include <string.h>

enum { MOST = 80 };

#define CALLS(X)                         \
    X(fribidi_get_bidi_types)            \
    X(fribidi_get_bracket_types)         \
    X(fribidi_get_bidi_type_name)        \
    X(fribidi_get_mirror_char)           \
    X(fribidi_get_par_direction)         \
    X(fribidi_get_par_embedding_levels_ex) \
    X(fribidi_reorder_line)              \
    X(fribidi_shape_mirroring)           \
    X(fribidi_remove_bidi_marks)

typedef struct {
#define FIELD(name) __typeof__(name) *name;
    CALLS(FIELD)
} library;

static library opened(const char *path) {
    void *handle = dlopen(path, RTLD_NOW | RTLD_LOCAL);
    if (!handle) { fprintf(stderr, "fribidi: %s\n", dlerror()); exit(1); }
    library l;
#define LOOKED_UP(name)                                                                        \
    l.name = (__typeof__(name) *)dlsym(handle, #name);                                         \
    if (!l.name) { fprintf(stderr, "fribidi: %s has no %s\n", path, #name); exit(1); }
    CALLS(LOOKED_UP)
    return l;
}

static uint64_t state;

static size_t below(size_t n) { /* xorshift */
    state ^= state << 13, state ^= state >> 7, state ^= state << 17;
    return state % n;
}

static const FriBidiChar PALETTE[] = {
    'a', 'b', 'c', '1', '2', '+', '-', '$', '%', ',', '.', ' ', ' ', '\t', '(', ')', '[', ']', '<', '>', '!', '&',
    0x5D0, 0x5D1, 0x5D2, 0x5B0, 0x300, 0x627, 0x628, 0x64B, 0x660, 0x661, 0x60C, 0x200D, 0x200E, 0x200F, 0xAD, 0x2028,
    0x10900, 0x202A, 0x202B, 0x202C, 0x202D, 0x202E,
};
enum { EMBEDDINGS = 5 }; /* the last ones */

static const FriBidiParType DIRECTIONS[] = {FRIBIDI_PAR_LTR, FRIBIDI_PAR_RTL, FRIBIDI_PAR_ON, FRIBIDI_PAR_WLTR, FRIBIDI_PAR_WRTL};

/* What a library makes of a text. */
typedef struct {
    FriBidiCharType types[MOST];
    FriBidiBracketType brackets[MOST];
    FriBidiLevel levels[MOST], most, line_levels[MOST], line_most;
    FriBidiParType direction, own;
    FriBidiChar visual[MOST];
    FriBidiStrIndex map[MOST], to[MOST], kept;
} result;

static void run(const library *l, const FriBidiChar *str, FriBidiStrIndex n, FriBidiParType direction, FriBidiStrIndex off,
                FriBidiStrIndex len, FriBidiFlags flags, result *r) {
    memset(r, 0, sizeof *r);
    l->fribidi_get_bidi_types(str, n, r->types);
    l->fribidi_get_bracket_types(str, n, r->types, r->brackets);
    r->own = l->fribidi_get_par_direction(r->types, n);
    r->direction = direction;
    r->most = l->fribidi_get_par_embedding_levels_ex(r->types, NULL, n, &r->direction, r->levels);
    memcpy(r->visual, str, n * sizeof *str);
    l->fribidi_shape_mirroring(r->levels, n, r->visual);
    for (FriBidiStrIndex i = 0; i < n; i++) r->map[i] = r->to[i] = i;
    memcpy(r->line_levels, r->levels, sizeof r->levels);
    r->line_most = l->fribidi_reorder_line(flags, r->types, len, off, r->direction, r->line_levels, r->visual, r->map);
    for (FriBidiStrIndex i = 0; i < n; i++) r->to[r->map[i]] = i;
    r->kept = l->fribidi_remove_bidi_marks(r->visual, n, r->to, r->map, NULL);
}

static const char *difference(const result *a, const result *b, FriBidiStrIndex n) {
    if (memcmp(a->types, b->types, sizeof a->types)) return "types";
    for (FriBidiStrIndex i = 0; i < n; i++)
        if (!a->brackets[i] != !b->brackets[i] || (a->brackets[i] ^ b->brackets[i]) >> 31) return "brackets";
    if (a->own != b->own) return "direction of the types";
    if (a->direction != b->direction) return "direction";
    if (a->most != b->most) return "highest level";
    if (memcmp(a->levels, b->levels, sizeof a->levels)) return "levels";
    if (a->line_most != b->line_most) return "highest level of the line";
    if (memcmp(a->line_levels, b->line_levels, sizeof a->line_levels)) return "levels of the line";
    if (a->kept != b->kept) return "number of characters without marks";
    if (memcmp(a->visual, b->visual, a->kept * sizeof *a->visual)) return "text";
    if (memcmp(a->map, b->map, a->kept * sizeof *a->map)) return "map";
    for (FriBidiStrIndex i = 0; i < a->kept; i++)
        if (a->to[a->map[i]] != i) return "inverse map";
    return NULL;
}

static void write_lines(void) {
    for (int line = 0; line < 3000; line++) {
        for (size_t left = 1 + below(60); left > 0; left--) {
            FriBidiChar c = PALETTE[below(sizeof PALETTE / sizeof *PALETTE)];
            if (c == '\t' || c == 0x2028 || c == 0x627 || c == 0x628 || strchr("()[]", (int)(c < 0x80 ? c : 'a'))) c = 0x5D0;
            if (c < 0x80) putchar((int)c);
            else if (c < 0x800) printf("%c%c", 0xC0 | c >> 6, 0x80 | (c & 0x3F));
            else if (c < 0x10000) printf("%c%c%c", 0xE0 | c >> 12, 0x80 | (c >> 6 & 0x3F), 0x80 | (c & 0x3F));
            else printf("%c%c%c%c", 0xF0 | c >> 18, 0x80 | (c >> 12 & 0x3F), 0x80 | (c >> 6 & 0x3F), 0x80 | (c & 0x3F));
        }
        putchar('\n');
    }
}

/* Whether both libraries have the same name for the type of each character, and the same mirrored character. */
static const char *difference_of_characters(const library *ours, const library *theirs) {
    for (size_t i = 0; i < sizeof PALETTE / sizeof *PALETTE; i++) {
        FriBidiCharType type;
        FriBidiChar a = 0, b = 0;
        ours->fribidi_get_bidi_types(&PALETTE[i], 1, &type);
        if (strcmp(ours->fribidi_get_bidi_type_name(type), theirs->fribidi_get_bidi_type_name(type))) return "name of a type";
        if (!ours->fribidi_get_mirror_char(PALETTE[i], &a) != !theirs->fribidi_get_mirror_char(PALETTE[i], &b) || a != b) return "mirrored character";
    }
    return NULL;
}

int main(int argc, char **argv) {
    if (argc == 3 && !strcmp(argv[1], "--lines")) {
        state = strtoull(argv[2], NULL, 10) | 1;
        write_lines();
        return 0;
    }
    if (argc < 3) { fprintf(stderr, "usage: fribidi OURS THEIRS [TEXTS [SEED]]\n"); return 2; }
    library ours = opened(argv[1]), theirs = opened(argv[2]);
    long texts = argc > 3 ? atol(argv[3]) : 100000, different = 0;
    state = argc > 4 ? strtoull(argv[4], NULL, 10) | 1 : 88172645463325252u;
    const char *character = difference_of_characters(&ours, &theirs);
    if (character) { printf("%s differs\n", character); return 1; }
    static result a, b;
    for (long t = 0; t < texts; t++) {
        FriBidiChar str[MOST];
        FriBidiStrIndex n = 1 + (FriBidiStrIndex)below(below(4) ? 12 : MOST);
        size_t kinds = sizeof PALETTE / sizeof *PALETTE - (below(2) ? EMBEDDINGS : 0);
        for (FriBidiStrIndex i = 0; i < n; i++) str[i] = PALETTE[below(kinds)];
        FriBidiStrIndex off = (FriBidiStrIndex)below(n), len = 1 + (FriBidiStrIndex)below(n - off);
        FriBidiParType direction = DIRECTIONS[below(5)];
        FriBidiFlags flags = below(2) ? FRIBIDI_FLAG_REORDER_NSM : 0;
        run(&ours, str, n, direction, off, len, flags, &a);
        run(&theirs, str, n, direction, off, len, flags, &b);
        const char *what = difference(&a, &b, n);
        if (!what) continue;
        if (different++ < 5) {
            printf("%s:", what);
            for (FriBidiStrIndex i = 0; i < n; i++) printf(" %04X", str[i]);
            printf(" (direction %x, line %d..%d, flags %x)\n ours  ", direction, off, off + len, flags);
            for (FriBidiStrIndex i = 0; i < n; i++) printf(" %d", a.levels[i]);
            printf("\n theirs");
            for (FriBidiStrIndex i = 0; i < n; i++) printf(" %d", b.levels[i]);
            printf("\n");
        }
    }
    printf("%ld texts compared, %ld differ\n", texts, different);
    return different != 0;
}
