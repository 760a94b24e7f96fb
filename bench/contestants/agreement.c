/* How far contestants agree with the library in UTF-32. Where they hold data of other versions of Unicode, they may
 * differ. Characters that X9 removes are not counted, since UAX #9 leaves it open where they stand. */
#include "race.h"
#include "unicode_bidi.h"
#include <stdio.h>
#include <stdlib.h>

/* What an entrant answers about each character of the text. Lines and pieces are taken without what X9 removes. */
typedef struct {
  uint8_t *paragraph_levels, *levels;
  uint32_t *lines, *pieces;
  size_t lines_len, pieces_len;
  int64_t runs, line_runs;
} answers;

enum { SCALARS = 0x110000 };

/* Of each scalar value whether X9 removes it, as far as it stands in the text. */
static uint8_t *find_removed(const encoded_text *text) {
  uint8_t *removed = room(SCALARS, 1), *classes = room(text->length, 1), *levels = room(text->length, 1);
  unicode_bidi_paragraph only_counted;
  if (unicode_bidi_analyse_utf32(text->units, text->length, UNICODE_BIDI_AUTO, UNICODE_BIDI_EACH_SEPARATOR, classes,
                                 text->length, levels, text->length, &only_counted, 0) < 0) {
    fprintf(stderr, "bench/peers: the library refuses the text\n");
    exit(1);
  }
  const uint32_t *values = text->units;
  for (size_t at = 0; at < text->length; at++)
    removed[values[at]] = classes[at] == UNICODE_BIDI_BN ||
                          (classes[at] >= UNICODE_BIDI_LRE && classes[at] <= UNICODE_BIDI_PDF);
  free(classes);
  free(levels);
  return removed;
}

/* Reads a character of what was written, and goes on behind it. */
static uint32_t next_value(encoding encoding, const void *units, size_t *at) {
  if (encoding == UTF32) return ((const uint32_t *)units)[(*at)++];
  if (encoding == UTF16) {
    const uint16_t *pairs = units;
    uint32_t value = pairs[(*at)++];
    return (value & 0xFC00) == 0xD800 ? (value << 10) + pairs[(*at)++] - 0x35FDC00 : value;
  }
  const uint8_t *bytes = units;
  uint32_t value = bytes[(*at)++];
  if (value < 0x80) return value;
  int more = value < 0xE0 ? 1 : value < 0xF0 ? 2 : 3;
  value &= 0x3Fu >> more;
  while (more-- > 0) value = value << 6 | (bytes[(*at)++] & 0x3F);
  return value;
}

/* Reads what was written at some ranges, and returns how many characters that is without what X9 removes. */
static size_t read_shown(const entrant *entrant, const uint8_t *removed, const unit_range *ranges, size_t ranges_len,
                         uint32_t *shown) {
  const void *units = entrant->who->shown(entrant->state);
  size_t shown_len = 0;
  for (size_t index = 0; index < ranges_len; index++)
    for (size_t at = ranges[index].start; at < ranges[index].end;) {
      uint32_t value = next_value(entrant->who->encoding, units, &at);
      if (!removed[value < SCALARS ? value : 0]) shown[shown_len++] = value;
    }
  return shown_len;
}

static answers answers_room(size_t characters) {
  return (answers){.paragraph_levels = room(characters, 1),
                   .levels = room(characters, 1),
                   .lines = room(characters, sizeof(uint32_t)),
                   .pieces = room(characters, sizeof(uint32_t)),
                   .runs = -1,
                   .line_runs = -1};
}

static void free_answers(answers *answers) {
  free(answers->paragraph_levels);
  free(answers->levels);
  free(answers->lines);
  free(answers->pieces);
}

/* Levels are asked for last, since FriBidi writes L1 over those of the analysis. */
static bool ask(entrant *asked, const uint8_t *removed, answers *answers) {
  const contestant *who = asked->who;
  const encoded_text *text = asked->text;
  if (!who->analyse(asked->state) || !who->reorder_lines(asked->state)) return false;
  answers->lines_len = read_shown(asked, removed, text->lines, text->lines_len, answers->lines);
  if (who->find_runs) answers->runs = who->find_runs(asked->state);
  if (who->find_line_runs) answers->line_runs = who->find_line_runs(asked->state);
  if (who->show_pieces) {
    if (!who->show_pieces(asked->state)) return false;
    answers->pieces_len = read_shown(asked, removed, text->pieces, text->pieces_len, answers->pieces);
  }
  return who->analyse(asked->state) && who->tell_levels(asked->state, answers->paragraph_levels, answers->levels);
}

/* How many characters differ in what was answered. */
typedef struct {
  size_t paragraph_levels, levels, lines, pieces;
} differences;

static size_t count_differences(const uint32_t *left, const uint32_t *right, size_t length) {
  size_t count = 0;
  for (size_t at = 0; at < length; at++) count += left[at] != right[at];
  return count;
}

static differences compare(const encoded_text *text, const uint8_t *removed, const answers *library,
                           const answers *answered) {
  const uint32_t *values = text->units;
  differences found = {.lines = count_differences(library->lines, answered->lines, library->lines_len),
                       .pieces = count_differences(library->pieces, answered->pieces, library->pieces_len)};
  for (size_t at = 0; at < text->length; at++) {
    if (removed[values[at]]) continue;
    found.paragraph_levels += library->paragraph_levels[at] != answered->paragraph_levels[at];
    found.levels += library->levels[at] != answered->levels[at];
  }
  return found;
}

/* Prints a number, or a dash if it is below 0. */
static void print_count(int64_t count) {
  if (count < 0) printf(" %14s |", "-");
  else printf(" %14lld |", (long long)count);
}

static void print_entrant(const contestant *who, const differences *found, const answers *answered) {
  printf("| %-18s | %16zu | %16zu | %16zu |", who->name, found->paragraph_levels, found->levels, found->lines);
  print_count(who->show_pieces ? (int64_t)found->pieces : -1);
  print_count(answered->runs);
  print_count(answered->line_runs);
  printf("\n");
}

static void compare_with(race *race, const uint8_t *removed, const answers *library) {
  const encoded_text *text = &race->text->encoded[UTF32];
  for (size_t index = 0; index < race->entrants_len; index++) {
    entrant *asked = &race->entrants[index];
    answers answered = answers_room(text->characters);
    if (ask(asked, removed, &answered)) {
      differences found = compare(text, removed, library, &answered);
      print_entrant(asked->who, &found, &answered);
    } else {
      printf("| %-18s | %16s | %16s | %16s | %14s | %14s | %14s |\n", asked->who->name, "failed", "failed", "failed",
             "failed", "failed", "failed");
    }
    free_answers(&answered);
  }
}

void print_agreement(race *race) {
  const encoded_text *text = &race->text->encoded[UTF32];
  uint8_t *removed = find_removed(text);
  answers library = answers_room(text->characters);
  bool asked = false;
  for (size_t index = 0; index < library_party.contestants_len; index++)
    if (race->entrants[index].who->encoding == UTF32) asked = ask(&race->entrants[index], removed, &library);
  printf("| %-18s | %16s | %16s | %16s | %14s | %14s | %14s |\n", "differ from it in", "paragraph levels",
         "levels after L1", "text of lines", "short texts", "visual runs", "runs of lines");
  printf("|--------------------|-----------------:|-----------------:|-----------------:|---------------:|"
         "---------------:|---------------:|\n");
  if (asked) compare_with(race, removed, &library);
  printf("\n");
  free_answers(&library);
  free(removed);
}
