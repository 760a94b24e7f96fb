/* ICU, over two of its objects that are opened once, as its users do: one for the text and one for lines. */
#include "contest.h"
#include <stdio.h>
#include <stdlib.h>
#include <string.h>
#include <unicode/ubidi.h>
#include <unicode/uchar.h>
#include <unicode/uversion.h>

typedef struct {
  const encoded_text *text;
  UBiDi *whole, *line;
  const UBiDiLevel *levels;
  UChar *shown;
} icu_state;

static void tell_version(void) {
  UVersionInfo version, unicode;
  u_getVersion(version);
  u_getUnicodeVersion(unicode);
  printf("ICU: %d.%d, Unicode %d.%d.%d\n", version[0], version[1], unicode[0], unicode[1], unicode[2]);
}

static void *open_icu(const encoded_text *text) {
  icu_state *state = room(1, sizeof *state);
  *state = (icu_state){.text = text, .whole = ubidi_open(), .line = ubidi_open(),
                       .shown = room(text->length, sizeof(UChar))};
  if (!state->whole || !state->line) {
    fprintf(stderr, "bench/peers: ICU could open no object\n");
    exit(1);
  }
  return state;
}

static void close_icu(void *closed) {
  icu_state *state = closed;
  ubidi_close(state->line);
  ubidi_close(state->whole);
  free(state->shown);
  free(state);
}

/* The levels are asked for, too: where all have one direction ICU writes them only then. */
static bool analyse(void *analysed) {
  icu_state *state = analysed;
  UErrorCode error = U_ZERO_ERROR;
  ubidi_setPara(state->whole, state->text->units, (int32_t)state->text->length, UBIDI_DEFAULT_LTR, NULL, &error);
  state->levels = ubidi_getLevels(state->whole, &error);
  return U_SUCCESS(error);
}

/* The visual runs of a range of one paragraph, each of which is asked for. */
static int64_t find_runs_of(icu_state *state, unit_range range) {
  UErrorCode error = U_ZERO_ERROR;
  volatile int32_t seen;
  ubidi_setLine(state->whole, (int32_t)range.start, (int32_t)range.end, state->line, &error);
  int32_t count = ubidi_countRuns(state->line, &error);
  if (U_FAILURE(error)) return -1;
  for (int32_t run = 0; run < count; run++) {
    int32_t start, length;
    seen = (int32_t)ubidi_getVisualRun(state->line, run, &start, &length);
    seen = start + length;
  }
  (void)seen;
  return count;
}

static unit_range paragraph_at(icu_state *state, int32_t index, UBiDiLevel *level) {
  UErrorCode error = U_ZERO_ERROR;
  int32_t start = 0, end = 0;
  ubidi_getParagraphByIndex(state->whole, index, &start, &end, level, &error);
  return (unit_range){(size_t)start, (size_t)end};
}

static int64_t find_runs(void *analysed) {
  icu_state *state = analysed;
  int32_t paragraphs = ubidi_countParagraphs(state->whole);
  int64_t sum = 0;
  for (int32_t index = 0; index < paragraphs; index++) {
    int64_t count = find_runs_of(state, paragraph_at(state, index, NULL));
    if (count < 0) return count;
    sum += count;
  }
  return sum;
}

static int64_t find_line_runs(void *analysed) {
  icu_state *state = analysed;
  int64_t sum = 0;
  for (size_t index = 0; index < state->text->lines_len; index++) {
    int64_t count = find_runs_of(state, state->text->lines[index]);
    if (count < 0) return count;
    sum += count;
  }
  return sum;
}

static bool reorder_lines(void *analysed) {
  icu_state *state = analysed;
  for (size_t index = 0; index < state->text->lines_len; index++) {
    unit_range line = state->text->lines[index];
    int32_t length = (int32_t)(line.end - line.start);
    UErrorCode error = U_ZERO_ERROR;
    ubidi_setLine(state->whole, (int32_t)line.start, (int32_t)line.end, state->line, &error);
    ubidi_writeReordered(state->line, state->shown + line.start, length, 0, &error);
    if (U_FAILURE(error)) return false;
  }
  return true;
}

/* The levels are asked for here, too, as part of the analysis. */
static bool show_pieces(void *analysed) {
  icu_state *state = analysed;
  for (size_t index = 0; index < state->text->pieces_len; index++) {
    unit_range piece = state->text->pieces[index];
    int32_t length = (int32_t)(piece.end - piece.start);
    UErrorCode error = U_ZERO_ERROR;
    ubidi_setPara(state->whole, units_from(state->text, piece.start), length, UBIDI_DEFAULT_LTR, NULL, &error);
    state->levels = ubidi_getLevels(state->whole, &error);
    ubidi_writeReordered(state->whole, state->shown + piece.start, length, 0, &error);
    if (U_FAILURE(error)) return false;
  }
  return true;
}

static const void *shown(void *analysed) { return ((icu_state *)analysed)->shown; }

/* What `analyse` was told of is after L1 already, with the end of each paragraph as the end of a line. */
static bool tell_levels(void *analysed, uint8_t *paragraph_levels, uint8_t *levels) {
  icu_state *state = analysed;
  const encoded_text *text = state->text;
  int32_t paragraphs = ubidi_countParagraphs(state->whole);
  size_t character = 0;
  for (int32_t index = 0; index < paragraphs; index++) {
    UBiDiLevel level = 0;
    unit_range paragraph = paragraph_at(state, index, &level);
    for (; character < text->characters && text->places[character] < paragraph.end; character++) {
      paragraph_levels[character] = level;
      levels[character] = state->levels[text->places[character]];
    }
  }
  return character == text->characters;
}

static const contestant contestants[] = {
  {"ICU UTF-16", UTF16, open_icu, analyse, find_runs, find_line_runs, reorder_lines, show_pieces, shown, tell_levels,
   close_icu},
};

const party icu_party = {tell_version, contestants, 1};
