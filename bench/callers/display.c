/* Displays texts with a library for C, as bench/languages asks: display CONTESTANT TEXT..
 *
 * CONTESTANT is the name of one of bench/contestants. Each paragraph of a text is one line. */
#define _POSIX_C_SOURCE 200809L
#include "text.h"
#include "turns.h"
#include <stdlib.h>
#include <string.h>

enum { MOST_TEXTS = 16, LONGEST = 1 << 24 };

static const party *const parties[] = {
    &library_party,
#ifdef WITH_ICU
    &icu_party,
#endif
#ifdef WITH_FRIBIDI
    &fribidi_party,
#endif
};

static const contestant *who;
static contest_text texts[MOST_TEXTS];
static void *states[MOST_TEXTS];

void *room(size_t count, size_t size) {
  void *found = calloc(count ? count : 1, size);
  if (found) return found;
  fprintf(stderr, "bench/languages: out of memory\n");
  exit(1);
}

static const contestant *contestant_named(const char *name) {
  for (size_t index = 0; index < sizeof parties / sizeof *parties; index++)
    for (size_t at = 0; at < parties[index]->contestants_len; at++)
      if (!strcmp(parties[index]->contestants[at].name, name)) return &parties[index]->contestants[at];
  return NULL;
}

static bool read_text(contest_text *text, const char *name) {
  static uint8_t bytes[LONGEST];
  FILE *file = fopen(name, "rb");
  if (!file) return false;
  const size_t length = fread(bytes, 1, LONGEST, file);
  fclose(file);
  if (!make_text(text, name, bytes, length)) return false;
  cut_at_paragraphs(text);
  return true;
}

/* A text of one paragraph takes one analysis and one line. A longer one takes one analysis, and a line a paragraph. */
static bool display(size_t index) {
  void *state = states[index];
  if (texts[index].paragraphs == 1) return who->show_pieces(state);
  return who->analyse(state) && who->reorder_lines(state);
}

/* The texts have no character above U+FFFF, so a code unit is a character. */
static void print_shown(size_t index) {
  const encoded_text *text = &texts[index].encoded[who->encoding];
  const void *shown = who->shown(states[index]);
  for (size_t unit = 0; unit < text->length; unit++)
    printf("%x ", who->encoding == UTF16 ? ((const uint16_t *)shown)[unit] : ((const uint32_t *)shown)[unit]);
  printf("\n");
}

int main(int count, char **words) {
  who = count > 2 ? contestant_named(words[1]) : NULL;
  if (!who || who->encoding == UTF8 || count - 2 > MOST_TEXTS) return 2;
  const size_t texts_len = (size_t)count - 2;
  for (size_t index = 0; index < texts_len; index++) {
    if (!read_text(&texts[index], words[index + 2])) return 2;
    states[index] = who->open(&texts[index].encoded[who->encoding]);
    if (!display(index)) return 1;
    print_shown(index);
  }
  return answer_turns(texts_len, display);
}
