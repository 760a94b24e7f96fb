/* What the driver of bench/peers and the contestants share.
 *
 * A contestant is one library in one encoding. It answers three questions about a text: the levels of every
 * paragraph, the visual runs of every paragraph as one line, and the text of every line from left to right. It also
 * finds the visual runs of every line, and shows pieces of the text, each of which it analyses as a text of its own. */
#ifndef CONTEST_H
#define CONTEST_H

#include <stdbool.h>
#include <stddef.h>
#include <stdint.h>

typedef enum { UTF8, UTF16, UTF32, ENCODINGS } encoding;

/* The units of a text from one up to and without another. */
typedef struct {
  size_t start, end;
} unit_range;

/* A text in one encoding. Its places are the first unit of each character, and behind them the length. A line
 * lies in one paragraph, and so does a piece. */
typedef struct {
  encoding encoding;
  void *units;
  size_t length;
  size_t *places;
  size_t characters;
  unit_range *lines;
  size_t lines_len;
  unit_range *pieces;
  size_t pieces_len;
} encoded_text;

typedef struct {
  const char *name;
  encoding encoding;
  /* Takes all buffers and objects that can be had before the first analysis. */
  void *(*open)(const encoded_text *text);
  bool (*analyse)(void *state);
  /* Over the last analysis: how many visual runs all paragraphs have, or below 0. Null where there is no such call. */
  int64_t (*find_runs)(void *state);
  /* The same of all lines. */
  int64_t (*find_line_runs)(void *state);
  /* Over the last analysis: writes each line from left to right into the buffer that `shown` answers, at the
   * places of the line. */
  bool (*reorder_lines)(void *state);
  /* Analyses each piece by itself and writes it as one line into the same buffer, at the places of the piece. No
   * analysis of the whole text is left. Null if the contestant does not take part. */
  bool (*show_pieces)(void *state);
  const void *(*shown)(void *state);
  /* Over the last analysis: of each character the level of its paragraph, and its level after L1 where each
   * paragraph is one line. It is never timed. */
  bool (*tell_levels)(void *state, uint8_t *paragraph_levels, uint8_t *levels);
  void (*close)(void *state);
} contestant;

/* A library with the encodings that it has. */
typedef struct {
  void (*tell_version)(void);
  const contestant *contestants;
  size_t contestants_len;
} party;

extern const party library_party, icu_party, fribidi_party, sheenbidi_party, crate_party;

/* Memory for so many items, at least one; where there is none, the program ends and says so. */
void *room(size_t count, size_t size);

/* Returns the units of a text from one on. */
const void *units_from(const encoded_text *text, size_t start);

#endif
