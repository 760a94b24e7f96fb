/* Times the calls of the static library with a file of UTF-8, in nanoseconds a character, a line or a short text;
 * main.rt.in times such calls of unicode_bidi. Lines have 60 characters, and fewer where a paragraph ends. A short text
 * is a piece of three words, and of fewer where a paragraph ends. It is analysed, and then shown as one line. Short texts
 * are also analysed alone, analysed with one analyser for all of them, analysed by the classes and the brackets of their
 * characters, ordered by classes and levels, and displayed in one call. */
#include "unicode_bidi.h"
#include <stdio.h>
#include <stdlib.h>
#include <time.h>

enum { ROUNDS = 5, LINE_LENGTH = 60, PIECE_WORDS = 3 };

typedef enum {
  ANALYSE,
  PARAGRAPHS,
  BASE_DIRECTION,
  LINE_LEVELS,
  LINE_RUNS,
  LINE_MAP,
  REORDER_LINE,
  SHOW_LINE,
  DISPLAY_PLAINLY, /* as reorder_line writes it, and both maps */
  DISPLAY_LINE,
  REORDER_VISUAL,
  DISPLAY_TEXT,
  ANALYSE_CLASSES, /* from here on, what the analysis wrote is overwritten */
  SHORT_TEXTS,
  SHORT_ANALYSES,
  SHORT_KEPT, /* with one analyser, which keeps its memory */
  SHORT_CLASSES,
  SHORT_ORDERS, /* analysed by classes, and ordered by classes and levels */
  SHORT_DISPLAYS,
  CALLS
} call;

typedef struct {
  size_t paragraph, start, end;
} text_line;

/* A piece, as a range of bytes and as one of characters. */
typedef struct {
  size_t start, end, first, last;
} text_piece;

static uint8_t *text, *classes, *levels, *line_levels, *bytes, *char_classes;
static uint32_t *char_brackets;
static size_t *places, *inverse;
static unicode_bidi_run *runs;
static unicode_bidi_analyser analyser;
static unicode_bidi_paragraph *paragraphs;
static text_line *lines;
static text_piece *pieces;
static size_t length, lines_len, pieces_len, characters_len, chars_len, shown_len;

static double now(void) {
  struct timespec time;
  clock_gettime(CLOCK_MONOTONIC, &time);
  return (double)time.tv_sec * 1e9 + (double)time.tv_nsec;
}

static int64_t analyse(size_t start, size_t end) {
  const size_t count = end - start;
  return unicode_bidi_analyse_utf8(text + start, count, UNICODE_BIDI_AUTO, UNICODE_BIDI_EACH_SEPARATOR, classes, count,
                                   levels, count, paragraphs, count);
}

static int64_t analyse_kept(size_t start, size_t end) {
  const size_t count = end - start;
  return unicode_bidi_analyse_with_utf8(&analyser, text + start, count, UNICODE_BIDI_AUTO, UNICODE_BIDI_EACH_SEPARATOR,
                                        classes, count, levels, count, paragraphs, count);
}

static int64_t analyse_classes(size_t first, size_t last) {
  const size_t count = last - first;
  return unicode_bidi_analyse_classes(char_classes + first, count, char_brackets + first, count, UNICODE_BIDI_AUTO,
                                      UNICODE_BIDI_EACH_SEPARATOR, classes, count, levels, count, paragraphs, count);
}

/* Displays a text as a device does: with its marks, mirrored, without direction controls. */
static int64_t display(size_t start, size_t end) {
  const size_t count = end - start;
  return unicode_bidi_display_text_utf8(text + start, count, UNICODE_BIDI_AUTO, UNICODE_BIDI_EACH_SEPARATOR,
                                        UNICODE_BIDI_MOVE_CLUSTERS + UNICODE_BIDI_MIRROR + UNICODE_BIDI_DROP_CONTROLS,
                                        line_levels, count, bytes, 2 * count, places, count, inverse, count, &shown_len,
                                        &characters_len);
}

/* Orders characters by their classes and levels, as one line of one paragraph. */
static int64_t order_characters(size_t first, size_t last) {
  const size_t count = last - first;
  int64_t found = analyse_classes(first, last);
  if (found < 0) return found;
  const unicode_bidi_paragraph whole = {0, count, paragraphs[0].level};
  return unicode_bidi_line_order(classes, count, levels, count, &whole, 0, count, UNICODE_BIDI_MOVE_MARKS, places, count,
                                 inverse, count);
}

/* Analyses a piece as a text of its own, and writes its one line from left to right. */
static int64_t show_piece(const text_piece *piece) {
  const size_t count = piece->end - piece->start;
  int64_t found = analyse(piece->start, piece->end);
  if (found < 0) return found;
  return unicode_bidi_reorder_line_utf8(text + piece->start, count, classes, count, levels, count, paragraphs, 0, count,
                                        bytes, count);
}

static int64_t show_pieces(void) {
  for (size_t at = 0; at < pieces_len; at++) {
    int64_t answer = show_piece(&pieces[at]);
    if (answer < 0) return answer;
  }
  return 0;
}

static int64_t call_piece(call call, const text_piece *piece) {
  switch (call) {
    case SHORT_KEPT: return analyse_kept(piece->start, piece->end);
    case SHORT_CLASSES: return analyse_classes(piece->first, piece->last);
    case SHORT_ORDERS: return order_characters(piece->first, piece->last);
    case SHORT_DISPLAYS: return display(piece->start, piece->end);
    default: return analyse(piece->start, piece->end);
  }
}

static int64_t call_pieces(call call) {
  for (size_t at = 0; at < pieces_len; at++) {
    int64_t answer = call_piece(call, &pieces[at]);
    if (answer < 0) return answer;
  }
  return 0;
}

static int64_t call_line(call call, const text_line *line) {
  const unicode_bidi_paragraph *paragraph = &paragraphs[line->paragraph];
  const size_t start = line->start, end = line->end;
  switch (call) {
    case LINE_LEVELS: return unicode_bidi_line_levels(classes, length, levels, length, paragraph, start, end, bytes,
                                                      length);
    case LINE_RUNS: return unicode_bidi_line_runs(classes, length, levels, length, paragraph, start, end, runs,
                                                  length);
    case LINE_MAP: return unicode_bidi_line_map_utf8(text, length, classes, length, levels, length, paragraph, start,
                                                     end, places, length);
    case SHOW_LINE: return unicode_bidi_show_line_utf8(text, length, classes, length, levels, length, paragraph, start,
                                                       end, line_levels, length, runs, length, places, length, bytes,
                                                       length, &characters_len);
    case DISPLAY_PLAINLY:
    case DISPLAY_LINE: {
      const uint32_t flags = call == DISPLAY_PLAINLY ? UNICODE_BIDI_MOVE_CHARACTERS
          : UNICODE_BIDI_MOVE_CLUSTERS + UNICODE_BIDI_MIRROR + UNICODE_BIDI_DROP_CONTROLS;
      return unicode_bidi_display_line_utf8(text, length, classes, length, levels, length, paragraph, start, end, flags,
                                            bytes, 2 * length, places, length, inverse, length, &shown_len,
                                            &characters_len);
    }
    default: return unicode_bidi_reorder_line_utf8(text, length, classes, length, levels, length, paragraph, start,
                                                   end, bytes, length);
  }
}

/* Makes the call over the whole text. */
static int64_t make(call call) {
  if (call == ANALYSE) return analyse(0, length);
  if (call == ANALYSE_CLASSES) return analyse_classes(0, chars_len);
  if (call == DISPLAY_TEXT) return display(0, length);
  if (call == PARAGRAPHS)
    return unicode_bidi_paragraphs_utf8(text, length, UNICODE_BIDI_AUTO, UNICODE_BIDI_EACH_SEPARATOR, classes, length,
                                        paragraphs, length);
  if (call == BASE_DIRECTION) return unicode_bidi_base_direction_utf8(text, length, 1);
  if (call == REORDER_VISUAL) return unicode_bidi_reorder_visual(levels, length, places, length);
  if (call == SHORT_TEXTS) return show_pieces();
  if (call >= SHORT_ANALYSES) return call_pieces(call); /* the last calls, each over all pieces */
  for (size_t at = 0; at < lines_len; at++) {
    int64_t answer = call_line(call, &lines[at]);
    if (answer < 0) return answer;
  }
  return 0;
}

static int begins_character(size_t at) { return (text[at] & 0xC0) != 0x80; }

/* Cuts the paragraphs into lines, and answers how many characters the text has. */
static size_t cut_lines(size_t paragraphs_len) {
  size_t characters = 0;
  for (size_t index = 0; index < paragraphs_len; index++) {
    size_t start = paragraphs[index].start, count = 0;
    for (size_t at = start; at < paragraphs[index].end; at++) {
      if (!begins_character(at)) continue;
      if (count == LINE_LENGTH) {
        lines[lines_len++] = (text_line){index, start, at};
        start = at;
        count = 0;
      }
      count++;
      characters++;
    }
    lines[lines_len++] = (text_line){index, start, paragraphs[index].end};
  }
  return characters;
}

static int ends_word(size_t at) { return text[at] == ' ' || text[at] == '\n'; }

/* Cuts the paragraphs into pieces. What has no word, such as an empty line, is in no piece. */
static void cut_pieces(size_t paragraphs_len) {
  for (size_t index = 0; index < paragraphs_len; index++) {
    size_t start = paragraphs[index].start, words = 0;
    for (size_t at = start; at < paragraphs[index].end; at++) {
      words += !ends_word(at) && (at == start || ends_word(at - 1));
      if (at + 1 < paragraphs[index].end && (words < PIECE_WORDS || !ends_word(at))) continue;
      if (words > 0) pieces[pieces_len++] = (text_piece){start, at + 1, 0, 0};
      start = at + 1;
      words = 0;
    }
  }
}

/* Reads the class and the bracket of each character, and counts the characters before each piece. */
static int read_characters(void) {
  uint32_t *brackets = malloc(length * sizeof *brackets);
  if (!brackets || unicode_bidi_brackets_utf8(text, length, brackets, length) < 0) return -1;
  if (unicode_bidi_classes_utf8(text, length, bytes, length) < 0) return -1;
  text_piece *piece = pieces;
  for (size_t at = 0; at < length; at++) {
    if (begins_character(at)) {
      char_classes[chars_len] = bytes[at];
      char_brackets[chars_len] = brackets[at];
      if (piece < pieces + pieces_len && at == piece->start) piece->first = chars_len;
      chars_len++;
    }
    if (piece < pieces + pieces_len && at + 1 == piece->end) piece++->last = chars_len;
  }
  free(brackets);
  return 0;
}

static int is_by_lines(call call) { return call >= LINE_LEVELS && call <= DISPLAY_LINE; }

static void print_time(const char *name, call call, double nanoseconds, double characters) {
  if (call >= SHORT_TEXTS) printf("%s: %.0f ns a text\n", name, nanoseconds / (double)pieces_len);
  else if (!is_by_lines(call)) printf("%s: %.2f ns a character\n", name, nanoseconds / characters);
  else
    printf("%s: %.2f ns a character, %.0f ns a line\n", name, nanoseconds / characters,
           nanoseconds / (double)lines_len);
}

static void *room(size_t size) {
  void *found = malloc(length * size);
  if (!found) exit(3);
  return found;
}

int main(int count, char **words) {
  static const char *const names[CALLS] = {
      "analyse", "paragraphs", "base_direction, full", "line_levels", "line_runs", "line_map", "reorder_line",
      "show_line", "display_line, plainly", "display_line", "reorder_visual", "display_text", "analyse_classes",
      "short texts", "short texts analysed", "with one analyser", "by classes", "by classes, ordered", "displayed"};
  FILE *file = count == 2 ? fopen(words[1], "rb") : NULL;
  if (!file || fseek(file, 0, SEEK_END)) return 2;
  length = (size_t)ftell(file);
  rewind(file);
  text = room(1);
  if (fread(text, 1, length, file) != length) return 4;
  classes = room(1);
  levels = room(1);
  line_levels = room(1);
  char_classes = room(1);
  char_brackets = room(sizeof *char_brackets);
  bytes = room(2);
  places = room(sizeof *places);
  inverse = room(sizeof *inverse);
  runs = room(sizeof *runs);
  paragraphs = room(sizeof *paragraphs);
  lines = room(sizeof *lines);
  pieces = room(sizeof *pieces);
  int64_t paragraphs_len = analyse(0, length);
  if (paragraphs_len < 0) return 2;
  double characters = (double)cut_lines((size_t)paragraphs_len);
  cut_pieces((size_t)paragraphs_len);
  if (read_characters()) return 2;
  for (call call = ANALYSE; call < CALLS; call++) {
    if (call >= SHORT_TEXTS && pieces_len == 0) continue;
    double shortest = 1e300;
    for (int round = 0; round < ROUNDS; round++) {
      double start = now();
      if (make(call) < 0) return 2;
      double spent = now() - start;
      if (spent < shortest) shortest = spent;
    }
    print_time(names[call], call, shortest, characters);
  }
  return 0;
}
