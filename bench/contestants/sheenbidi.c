/* SheenBidi. An analysis is an object for the text and one for each paragraph, which are released when the next one
 * is made. It has no call that writes a line's text, so the runs of a line are written out here. */
#include "contest.h"
#if __has_include(<SheenBidi/SheenBidi.h>)
#include <SheenBidi/SheenBidi.h>
#else
#include <SheenBidi.h>
#endif
#include <stdio.h>
#include <stdlib.h>
#include <string.h>

typedef struct {
  const encoded_text *text;
  SBAlgorithmRef algorithm;
  SBParagraphRef *paragraphs;
  size_t paragraphs_len;
  void *shown;
} sheenbidi_state;

/* Headers from version 3 on say which they are. */
#ifdef SHEENBIDI_VERSION_STRING
static const char version[] = SHEENBIDI_VERSION_STRING;
#else
static const char version[] = SHEENBIDI_FOUND;
#endif

static void tell_version(void) { printf("SheenBidi: %s, does not tell its Unicode version\n", version); }

static size_t unit_size(const encoded_text *text) {
  static const size_t sizes[ENCODINGS] = {sizeof(uint8_t), sizeof(uint16_t), sizeof(uint32_t)};
  return sizes[text->encoding];
}

static void *open_sheenbidi(const encoded_text *text) {
  sheenbidi_state *state = room(1, sizeof *state);
  *state = (sheenbidi_state){.text = text,
                             .paragraphs = room(text->length, sizeof(SBParagraphRef)),
                             .shown = room(text->length, unit_size(text))};
  return state;
}

static void release(sheenbidi_state *state) {
  for (size_t index = 0; index < state->paragraphs_len; index++) SBParagraphRelease(state->paragraphs[index]);
  state->paragraphs_len = 0;
  if (state->algorithm) SBAlgorithmRelease(state->algorithm);
  state->algorithm = NULL;
}

static void close_sheenbidi(void *closed) {
  sheenbidi_state *state = closed;
  release(state);
  free(state->paragraphs);
  free(state->shown);
  free(state);
}

static SBAlgorithmRef create_algorithm(const encoded_text *text, unit_range range) {
  static const SBStringEncoding encodings[ENCODINGS] = {SBStringEncodingUTF8, SBStringEncodingUTF16,
                                                        SBStringEncodingUTF32};
  SBCodepointSequence sequence = {encodings[text->encoding], units_from(text, range.start), range.end - range.start};
  return SBAlgorithmCreate(&sequence);
}

static bool analyse(void *analysed) {
  sheenbidi_state *state = analysed;
  const encoded_text *text = state->text;
  release(state);
  state->algorithm = create_algorithm(text, (unit_range){0, text->length});
  if (!state->algorithm) return false;
  for (size_t start = 0; start < text->length;) {
    SBParagraphRef paragraph =
        SBAlgorithmCreateParagraph(state->algorithm, start, text->length - start, SBLevelDefaultLTR);
    if (!paragraph) return false;
    state->paragraphs[state->paragraphs_len++] = paragraph;
    start += SBParagraphGetLength(paragraph);
  }
  return true;
}

static size_t paragraph_end(SBParagraphRef paragraph) {
  return SBParagraphGetOffset(paragraph) + SBParagraphGetLength(paragraph);
}

static SBLineRef whole_line(SBParagraphRef paragraph) {
  return SBParagraphCreateLine(paragraph, SBParagraphGetOffset(paragraph), SBParagraphGetLength(paragraph));
}

/* Reads the runs of a line and releases it. Returns their number, or -1 if there is no line. */
static int64_t read_runs(SBLineRef line) {
  if (!line) return -1;
  const SBRun *runs = SBLineGetRunsPtr(line);
  size_t count = SBLineGetRunCount(line);
  volatile size_t seen;
  for (size_t run = 0; run < count; run++) seen = runs[run].offset + runs[run].length;
  (void)seen;
  SBLineRelease(line);
  return (int64_t)count;
}

static int64_t find_runs(void *analysed) {
  sheenbidi_state *state = analysed;
  int64_t sum = 0;
  for (size_t index = 0; index < state->paragraphs_len; index++) {
    int64_t count = read_runs(whole_line(state->paragraphs[index]));
    if (count < 0) return count;
    sum += count;
  }
  return sum;
}

static int64_t find_line_runs(void *analysed) {
  sheenbidi_state *state = analysed;
  const SBParagraphRef *paragraph = state->paragraphs;
  int64_t sum = 0;
  for (size_t index = 0; index < state->text->lines_len; index++) {
    unit_range range = state->text->lines[index];
    while (range.start >= paragraph_end(*paragraph)) paragraph++;
    int64_t count = read_runs(SBParagraphCreateLine(*paragraph, range.start, range.end - range.start));
    if (count < 0) return count;
    sum += count;
  }
  return sum;
}

static void copy_units(sheenbidi_state *state, size_t to, size_t from, size_t count) {
  size_t size = unit_size(state->text);
  memcpy((char *)state->shown + to * size, (const char *)state->text->units + from * size, count * size);
}

/* Each of these writes the characters of a run from the last one to the first. */
static void write_backwards_utf8(sheenbidi_state *state, size_t to, unit_range run) {
  const uint8_t *units = state->text->units;
  uint8_t *shown = state->shown;
  while (run.end > run.start) {
    size_t first = run.end - 1;
    while ((units[first] & 0xC0) == 0x80) first--;
    for (size_t at = first; at < run.end; at++) shown[to++] = units[at];
    run.end = first;
  }
}

static void write_backwards_utf16(sheenbidi_state *state, size_t to, unit_range run) {
  const uint16_t *units = state->text->units;
  uint16_t *shown = state->shown;
  while (run.end > run.start) {
    uint16_t last = units[--run.end];
    if ((last & 0xFC00) == 0xDC00) shown[to++] = units[--run.end];
    shown[to++] = last;
  }
}

static void write_backwards_utf32(sheenbidi_state *state, size_t to, unit_range run) {
  const uint32_t *units = state->text->units;
  uint32_t *shown = state->shown;
  while (run.end > run.start) shown[to++] = units[--run.end];
}

static void write_run(sheenbidi_state *state, size_t to, unit_range run, SBLevel level) {
  static void (*const backwards[ENCODINGS])(sheenbidi_state *, size_t, unit_range) = {
      write_backwards_utf8, write_backwards_utf16, write_backwards_utf32};
  if (level % 2 == 0) copy_units(state, to, run.start, run.end - run.start);
  else backwards[state->text->encoding](state, to, run);
}

/* Writes a line at its place and releases it. Its runs are counted from `front`. */
static bool write_line(sheenbidi_state *state, size_t front, SBLineRef line) {
  if (!line) return false;
  const SBRun *run = SBLineGetRunsPtr(line), *behind = run + SBLineGetRunCount(line);
  for (size_t to = front + SBLineGetOffset(line); run < behind; to += run++->length) {
    size_t start = front + run->offset;
    write_run(state, to, (unit_range){start, start + run->length}, run->level);
  }
  SBLineRelease(line);
  return true;
}

static bool reorder_lines(void *analysed) {
  sheenbidi_state *state = analysed;
  const SBParagraphRef *paragraph = state->paragraphs;
  for (size_t index = 0; index < state->text->lines_len; index++) {
    unit_range range = state->text->lines[index];
    while (range.start >= paragraph_end(*paragraph)) paragraph++;
    if (!write_line(state, 0, SBParagraphCreateLine(*paragraph, range.start, range.end - range.start))) return false;
  }
  return true;
}

static bool show_piece(sheenbidi_state *state, unit_range piece) {
  const size_t length = piece.end - piece.start;
  SBAlgorithmRef algorithm = create_algorithm(state->text, piece);
  if (!algorithm) return false;
  SBParagraphRef paragraph = SBAlgorithmCreateParagraph(algorithm, 0, length, SBLevelDefaultLTR);
  bool written = paragraph && write_line(state, piece.start, SBParagraphCreateLine(paragraph, 0, length));
  if (paragraph) SBParagraphRelease(paragraph);
  SBAlgorithmRelease(algorithm);
  return written;
}

static bool show_pieces(void *analysed) {
  sheenbidi_state *state = analysed;
  for (size_t index = 0; index < state->text->pieces_len; index++)
    if (!show_piece(state, state->text->pieces[index])) return false;
  return true;
}

static const void *shown(void *analysed) { return ((sheenbidi_state *)analysed)->shown; }

/* Writes the level of each run of a line at the units of the run. */
static bool write_levels(SBParagraphRef paragraph, uint8_t *unit_levels) {
  SBLineRef line = whole_line(paragraph);
  if (!line) return false;
  const SBRun *run = SBLineGetRunsPtr(line), *behind = run + SBLineGetRunCount(line);
  for (; run < behind; run++) memset(unit_levels + run->offset, run->level, run->length);
  SBLineRelease(line);
  return true;
}

static bool tell_levels(void *analysed, uint8_t *paragraph_levels, uint8_t *levels) {
  sheenbidi_state *state = analysed;
  const encoded_text *text = state->text;
  uint8_t *unit_levels = room(text->length, 1);
  bool told = true;
  size_t character = 0;
  for (size_t index = 0; told && index < state->paragraphs_len; index++) {
    SBParagraphRef paragraph = state->paragraphs[index];
    told = write_levels(paragraph, unit_levels);
    for (; text->places[character] < paragraph_end(paragraph); character++) {
      paragraph_levels[character] = SBParagraphGetBaseLevel(paragraph);
      levels[character] = unit_levels[text->places[character]];
    }
  }
  free(unit_levels);
  return told;
}

static const contestant contestants[] = {
  {"SheenBidi UTF-8", UTF8, open_sheenbidi, analyse, find_runs, find_line_runs, reorder_lines, show_pieces, shown,
   tell_levels, close_sheenbidi},
  {"SheenBidi UTF-16", UTF16, open_sheenbidi, analyse, find_runs, find_line_runs, reorder_lines, show_pieces, shown,
   tell_levels, close_sheenbidi},
  {"SheenBidi UTF-32", UTF32, open_sheenbidi, analyse, find_runs, find_line_runs, reorder_lines, show_pieces, shown,
   tell_levels, close_sheenbidi},
};

const party sheenbidi_party = {tell_version, contestants, sizeof contestants / sizeof *contestants};
