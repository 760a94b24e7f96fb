/* The static library of this repository. */
#include "contest.h"
#include "unicode_bidi.h"
#include <stdio.h>
#include <stdlib.h>

typedef struct {
  const encoded_text *text;
  uint8_t *classes, *levels, *line_levels;
  unicode_bidi_paragraph *paragraphs;
  size_t paragraphs_len;
  unicode_bidi_run *runs;
  void *shown;
} library_state;

static void tell_version(void) {
  int64_t version = unicode_bidi_version(), unicode = unicode_bidi_unicode_version();
  printf("library: %d.%d.%d, Unicode %d.%d.%d\n", (int)(version / 10000), (int)(version / 100 % 100),
         (int)(version % 100), (int)(unicode / 10000), (int)(unicode / 100 % 100), (int)(unicode % 100));
}

static void *open_library(const encoded_text *text) {
  library_state *state = room(1, sizeof *state);
  size_t length = text->length;
  *state = (library_state){.text = text,
                           .classes = room(length, 1),
                           .levels = room(length, 1),
                           .line_levels = room(length, 1),
                           .paragraphs = room(length, sizeof(unicode_bidi_paragraph)),
                           .runs = room(length, sizeof(unicode_bidi_run)),
                           .shown = room(length, sizeof(uint32_t))};
  return state;
}

static void close_library(void *closed) {
  library_state *state = closed;
  free(state->classes);
  free(state->levels);
  free(state->line_levels);
  free(state->paragraphs);
  free(state->runs);
  free(state->shown);
  free(state);
}

/* Analyses a range of the text as a text of its own. */
static int64_t call_analyse(library_state *state, unit_range range) {
  const void *units = units_from(state->text, range.start);
  const size_t length = range.end - range.start;
  const uint8_t base = UNICODE_BIDI_AUTO, split = UNICODE_BIDI_CR_LF_TOGETHER;
  switch (state->text->encoding) {
    case UTF8: return unicode_bidi_analyse_utf8(units, length, base, split, state->classes, length, state->levels,
                                                length, state->paragraphs, length);
    case UTF16: return unicode_bidi_analyse_utf16(units, length, base, split, state->classes, length, state->levels,
                                                  length, state->paragraphs, length);
    default: return unicode_bidi_analyse_utf32(units, length, base, split, state->classes, length, state->levels,
                                               length, state->paragraphs, length);
  }
}

static bool analyse(void *analysed) {
  library_state *state = analysed;
  int64_t count = call_analyse(state, (unit_range){0, state->text->length});
  state->paragraphs_len = count < 0 ? 0 : (size_t)count;
  return count >= 0;
}

static int64_t find_runs(void *analysed) {
  library_state *state = analysed;
  const size_t length = state->text->length;
  int64_t sum = 0;
  for (size_t index = 0; index < state->paragraphs_len; index++) {
    const unicode_bidi_paragraph *paragraph = &state->paragraphs[index];
    int64_t count = unicode_bidi_line_runs(state->classes, length, state->levels, length, paragraph,
                                           paragraph->start, paragraph->end, state->runs, length);
    if (count < 0) return count;
    sum += count;
  }
  return sum;
}

static int64_t find_line_runs(void *analysed) {
  library_state *state = analysed;
  const size_t length = state->text->length;
  const unicode_bidi_paragraph *paragraph = state->paragraphs;
  int64_t sum = 0;
  for (size_t index = 0; index < state->text->lines_len; index++) {
    unit_range line = state->text->lines[index];
    while (line.start >= paragraph->end) paragraph++;
    int64_t count = unicode_bidi_line_runs(state->classes, length, state->levels, length, paragraph, line.start,
                                           line.end, state->runs, length);
    if (count < 0) return count;
    sum += count;
  }
  return sum;
}

/* Writes a line of the range that was analysed last. The line is counted from the start of that range. */
static int64_t call_reorder_line(library_state *state, unit_range range, const unicode_bidi_paragraph *paragraph,
                                 unit_range line) {
  const void *units = units_from(state->text, range.start);
  const size_t length = range.end - range.start, line_length = line.end - line.start, to = range.start + line.start;
  switch (state->text->encoding) {
    case UTF8: return unicode_bidi_reorder_line_utf8(units, length, state->classes, length, state->levels, length,
                                                     paragraph, line.start, line.end,
                                                     (uint8_t *)state->shown + to, line_length);
    case UTF16: return unicode_bidi_reorder_line_utf16(units, length, state->classes, length, state->levels, length,
                                                       paragraph, line.start, line.end,
                                                       (uint16_t *)state->shown + to, line_length);
    default: return unicode_bidi_reorder_line_utf32(units, length, state->classes, length, state->levels, length,
                                                    paragraph, line.start, line.end,
                                                    (uint32_t *)state->shown + to, line_length);
  }
}

static bool reorder_lines(void *analysed) {
  library_state *state = analysed;
  const unicode_bidi_paragraph *paragraph = state->paragraphs;
  const unit_range whole = {0, state->text->length};
  for (size_t index = 0; index < state->text->lines_len; index++) {
    unit_range line = state->text->lines[index];
    while (line.start >= paragraph->end) paragraph++;
    if (call_reorder_line(state, whole, paragraph, line) < 0) return false;
  }
  return true;
}

static bool show_pieces(void *analysed) {
  library_state *state = analysed;
  for (size_t index = 0; index < state->text->pieces_len; index++) {
    unit_range piece = state->text->pieces[index], line = {0, piece.end - piece.start};
    if (call_analyse(state, piece) != 1 || call_reorder_line(state, piece, state->paragraphs, line) < 0) return false;
  }
  return true;
}

static const void *shown(void *analysed) { return ((library_state *)analysed)->shown; }

static bool tell_levels(void *analysed, uint8_t *paragraph_levels, uint8_t *levels) {
  library_state *state = analysed;
  const encoded_text *text = state->text;
  const unicode_bidi_paragraph *paragraph = state->paragraphs, *behind = paragraph + state->paragraphs_len;
  for (size_t character = 0; paragraph < behind; paragraph++) {
    if (unicode_bidi_line_levels(state->classes, text->length, state->levels, text->length, paragraph,
                                 paragraph->start, paragraph->end, state->line_levels, text->length) < 0)
      return false;
    for (; text->places[character] < paragraph->end; character++) {
      paragraph_levels[character] = paragraph->level;
      levels[character] = state->line_levels[text->places[character] - paragraph->start];
    }
  }
  return true;
}

static const contestant contestants[] = {
  {"library UTF-8", UTF8, open_library, analyse, find_runs, find_line_runs, reorder_lines, show_pieces, shown,
   tell_levels, close_library},
  {"library UTF-16", UTF16, open_library, analyse, find_runs, find_line_runs, reorder_lines, show_pieces, shown,
   tell_levels, close_library},
  {"library UTF-32", UTF32, open_library, analyse, find_runs, find_line_runs, reorder_lines, show_pieces, shown,
   tell_levels, close_library},
};

const party library_party = {tell_version, contestants, sizeof contestants / sizeof *contestants};
