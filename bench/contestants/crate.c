/* The Rust crate unicode-bidi, by the calls of crate.rs. It takes no part in pieces and in the runs of lines. */
#include "contest.h"
#include <stdio.h>
#include <stdlib.h>

typedef struct crate_analysis crate_analysis;

typedef struct {
  const encoded_text *text;
  crate_analysis *analysis;
  void *shown;
} crate_state;

void crate_unicode_version(uint64_t *numbers);

static void tell_version(void) {
  uint64_t numbers[3];
  crate_unicode_version(numbers);
  printf("crate unicode-bidi: %s, Unicode %d.%d.%d\n", CRATE_FOUND, (int)numbers[0], (int)numbers[1],
         (int)numbers[2]);
}

static const void *shown(void *analysed) { return ((crate_state *)analysed)->shown; }

/* Takes levels of one a unit for each character. */
static void take_levels(const encoded_text *text, const uint8_t *unit_levels, uint8_t *levels) {
  for (size_t character = 0; character < text->characters; character++)
    levels[character] = unit_levels[text->places[character]];
}

typedef void level_teller(crate_analysis *analysis, uint8_t *paragraph_levels, uint8_t *levels);

static bool tell_by(level_teller *teller, const crate_state *state, uint8_t *paragraph_levels, uint8_t *levels) {
  const encoded_text *text = state->text;
  uint8_t *unit_paragraph_levels = room(text->length, 1), *unit_levels = room(text->length, 1);
  teller(state->analysis, unit_paragraph_levels, unit_levels);
  take_levels(text, unit_paragraph_levels, paragraph_levels);
  take_levels(text, unit_levels, levels);
  free(unit_paragraph_levels);
  free(unit_levels);
  return true;
}

/* The same functions over the calls of one encoding. */
#define CALLS_OF(name, unit)                                                                                   \
  crate_analysis *crate_##name##_open(const unit *units, size_t length, const unit_range *lines,               \
                                      size_t lines_len, unit *shown);                                          \
  void crate_##name##_analyse(crate_analysis *analysis);                                                       \
  size_t crate_##name##_find_runs(crate_analysis *analysis);                                                   \
  void crate_##name##_reorder_lines(crate_analysis *analysis);                                                 \
  level_teller crate_##name##_tell_levels;                                                                     \
  void crate_##name##_close(crate_analysis *analysis);                                                         \
                                                                                                               \
  static void *open_##name(const encoded_text *text) {                                                         \
    crate_state *state = room(1, sizeof *state);                                                               \
    *state = (crate_state){.text = text, .shown = room(text->length, sizeof(unit))};                           \
    state->analysis =                                                                                          \
        crate_##name##_open(text->units, text->length, text->lines, text->lines_len, state->shown);            \
    return state;                                                                                              \
  }                                                                                                            \
  static bool analyse_##name(void *analysed) {                                                                 \
    crate_##name##_analyse(((crate_state *)analysed)->analysis);                                               \
    return true;                                                                                               \
  }                                                                                                            \
  static int64_t find_runs_##name(void *analysed) {                                                            \
    return (int64_t)crate_##name##_find_runs(((crate_state *)analysed)->analysis);                             \
  }                                                                                                            \
  static bool reorder_lines_##name(void *analysed) {                                                           \
    crate_##name##_reorder_lines(((crate_state *)analysed)->analysis);                                         \
    return true;                                                                                               \
  }                                                                                                            \
  static bool tell_levels_##name(void *analysed, uint8_t *paragraph_levels, uint8_t *levels) {                 \
    return tell_by(crate_##name##_tell_levels, analysed, paragraph_levels, levels);                            \
  }                                                                                                            \
  static void close_##name(void *closed) {                                                                     \
    crate_state *state = closed;                                                                               \
    crate_##name##_close(state->analysis);                                                                     \
    free(state->shown);                                                                                        \
    free(state);                                                                                               \
  }

#define CONTESTANT_OF(shown_name, encoding, name)                                                              \
  {shown_name, encoding, open_##name, analyse_##name, find_runs_##name, NULL, reorder_lines_##name, NULL,      \
   shown, tell_levels_##name, close_##name}

CALLS_OF(utf8, uint8_t)
#ifdef CRATE_HAS_UTF16
CALLS_OF(utf16, uint16_t)
#endif

static const contestant contestants[] = {
  CONTESTANT_OF("crate UTF-8", UTF8, utf8),
#ifdef CRATE_HAS_UTF16
  CONTESTANT_OF("crate UTF-16", UTF16, utf16),
#endif
};

const party crate_party = {tell_version, contestants, sizeof contestants / sizeof *contestants};
