/* GNU FriBidi. It takes one paragraph at a time, and cutting the text is left to its callers. It has no call that
 * answers visual runs. */
#include "contest.h"
#include <fribidi.h>
#include <stdio.h>
#include <stdlib.h>
#include <string.h>

typedef struct {
  size_t end;
  FriBidiParType direction;
} fribidi_paragraph;

typedef struct {
  const encoded_text *text;
  FriBidiCharType *types;
  FriBidiBracketType *brackets;
  FriBidiLevel *levels;
  fribidi_paragraph *paragraphs;
  size_t paragraphs_len;
  FriBidiChar *shown;
} fribidi_state;

static void tell_version(void) {
  const char *version = strchr(fribidi_version_info, ')');
  version = version ? version + 1 : fribidi_version_info;
  version += strspn(version, " ");
  printf("FriBidi: %.*s, Unicode %s\n", (int)strcspn(version, "\n"), version, fribidi_unicode_version);
}

static void *open_fribidi(const encoded_text *text) {
  fribidi_state *state = room(1, sizeof *state);
  size_t length = text->length;
  *state = (fribidi_state){.text = text,
                           .types = room(length, sizeof(FriBidiCharType)),
                           .brackets = room(length, sizeof(FriBidiBracketType)),
                           .levels = room(length, sizeof(FriBidiLevel)),
                           .paragraphs = room(length, sizeof(fribidi_paragraph)),
                           .shown = room(length, sizeof(FriBidiChar))};
  return state;
}

static void close_fribidi(void *closed) {
  fribidi_state *state = closed;
  free(state->types);
  free(state->brackets);
  free(state->levels);
  free(state->paragraphs);
  free(state->shown);
  free(state);
}

/* The end of the paragraph that begins at `start`. CR and LF are one separator. */
static size_t paragraph_end(const fribidi_state *state, size_t start) {
  const FriBidiChar *units = state->text->units;
  const size_t length = state->text->length;
  size_t at = start;
  while (at < length && state->types[at] != FRIBIDI_TYPE_BS) at++;
  if (at + 1 < length && units[at] == '\r' && units[at + 1] == '\n') at++;
  return at < length ? at + 1 : length;
}

static bool analyse(void *analysed) {
  fribidi_state *state = analysed;
  const size_t length = state->text->length;
  fribidi_get_bidi_types(state->text->units, (FriBidiStrIndex)length, state->types);
  fribidi_get_bracket_types(state->text->units, (FriBidiStrIndex)length, state->types, state->brackets);
  state->paragraphs_len = 0;
  for (size_t start = 0, end; start < length; start = end) {
    FriBidiParType direction = FRIBIDI_PAR_ON;
    end = paragraph_end(state, start);
    if (!fribidi_get_par_embedding_levels_ex(state->types + start, state->brackets + start,
                                             (FriBidiStrIndex)(end - start), &direction, state->levels + start))
      return false;
    state->paragraphs[state->paragraphs_len++] = (fribidi_paragraph){end, direction};
  }
  return true;
}

/* Reorders a line of the paragraph that begins at `start`, in place, and writes L1 into the levels. */
static bool reorder(fribidi_state *state, size_t start, FriBidiParType direction, unit_range line,
                    FriBidiChar *visual) {
  return fribidi_reorder_line(0, state->types + start, (FriBidiStrIndex)(line.end - line.start),
                              (FriBidiStrIndex)(line.start - start), direction, state->levels + start, visual,
                              NULL) != 0;
}

static bool reorder_lines(void *analysed) {
  fribidi_state *state = analysed;
  const fribidi_paragraph *paragraph = state->paragraphs;
  size_t start = 0;
  for (size_t index = 0; index < state->text->lines_len; index++) {
    unit_range line = state->text->lines[index];
    while (line.start >= paragraph->end) start = paragraph++->end;
    memcpy(state->shown + line.start, (const FriBidiChar *)state->text->units + line.start,
           (line.end - line.start) * sizeof(FriBidiChar));
    if (!reorder(state, start, paragraph->direction, line, state->shown + start)) return false;
  }
  return true;
}

/* Shows the piece at the front of the buffers for types, brackets and levels. */
static bool show_piece(fribidi_state *state, unit_range piece) {
  const FriBidiChar *units = units_from(state->text, piece.start);
  const size_t length = piece.end - piece.start;
  FriBidiParType direction = FRIBIDI_PAR_ON;
  fribidi_get_bidi_types(units, (FriBidiStrIndex)length, state->types);
  fribidi_get_bracket_types(units, (FriBidiStrIndex)length, state->types, state->brackets);
  if (!fribidi_get_par_embedding_levels_ex(state->types, state->brackets, (FriBidiStrIndex)length, &direction,
                                           state->levels))
    return false;
  memcpy(state->shown + piece.start, units, length * sizeof(FriBidiChar));
  return reorder(state, 0, direction, (unit_range){0, length}, state->shown + piece.start);
}

static bool show_pieces(void *analysed) {
  fribidi_state *state = analysed;
  for (size_t index = 0; index < state->text->pieces_len; index++)
    if (!show_piece(state, state->text->pieces[index])) return false;
  return true;
}

static const void *shown(void *analysed) { return ((fribidi_state *)analysed)->shown; }

static bool tell_levels(void *analysed, uint8_t *paragraph_levels, uint8_t *levels) {
  fribidi_state *state = analysed;
  size_t start = 0;
  for (size_t index = 0; index < state->paragraphs_len; index++) {
    const fribidi_paragraph *paragraph = &state->paragraphs[index];
    if (!reorder(state, start, paragraph->direction, (unit_range){start, paragraph->end}, NULL)) return false;
    for (; start < paragraph->end; start++) {
      paragraph_levels[start] = FRIBIDI_IS_RTL(paragraph->direction) ? 1 : 0;
      levels[start] = (uint8_t)state->levels[start];
    }
  }
  return true;
}

static const contestant contestants[] = {
  {"FriBidi UTF-32", UTF32, open_fribidi, analyse, NULL, NULL, reorder_lines, show_pieces, shown, tell_levels,
   close_fribidi},
};

const party fribidi_party = {tell_version, contestants, 1};
