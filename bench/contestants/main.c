/* The driver of bench/peers: ROUNDS FILE.., or ROUNDS --hostile. Its words come from that script. */
#include "race.h"
#ifdef __GLIBC__
#include <malloc.h>
#endif
#include <limits.h>
#include <stdio.h>
#include <stdlib.h>
#include <string.h>

/* ICU and FriBidi count units by numbers of 32 bits. */
static const long LONGEST_FILE = 1L << 30;

static const party *const parties[] = {
    &library_party,
#ifdef WITH_ICU
    &icu_party,
#endif
#ifdef WITH_FRIBIDI
    &fribidi_party,
#endif
#ifdef WITH_SHEENBIDI
    &sheenbidi_party,
#endif
#ifdef WITH_CRATE
    &crate_party,
#endif
};

enum { PARTIES = sizeof parties / sizeof *parties, MOST_CONTESTANTS = 16 };

/* All contestants, those of the library first. */
static const contestant *contestants[MOST_CONTESTANTS];
static size_t contestants_len;

/* What the time of an operation is divided by. */
typedef enum { PER_CHARACTER, PER_TEXT, PER_LINE } share;

/* A table of figures. An operation can be in two, by different shares. */
typedef struct {
  const char *name;
  operation operation;
  share share;
} table;

/* Hostile texts have the tables of the first operations. */
static const table tables[] = {
  {"analysis", ANALYSIS, PER_CHARACTER},
  {"visual runs", RUNS, PER_CHARACTER},
  {"lines of 60", LINES, PER_CHARACTER},
  {"short texts", PIECES, PER_TEXT},
  {"runs of a line", LINE_RUNS, PER_LINE},
  {"text of a line", LINES, PER_LINE},
};

enum { TABLES = sizeof tables / sizeof *tables, HOSTILE_TABLES = HOSTILE_OPERATIONS };

void *room(size_t count, size_t size) {
  void *found = calloc(count ? count : 1, size);
  if (found) return found;
  fprintf(stderr, "bench/peers: no memory for a text of this length, hand in a shorter one\n");
  exit(1);
}

/* Without this a contestant would pay for pages that the one before it has given back to the system. */
static void keep_pages(void) {
#ifdef __GLIBC__
  mallopt(M_MMAP_MAX, 0);
  mallopt(M_TRIM_THRESHOLD, INT_MAX);
#endif
}

static void gather_contestants(void) {
  for (size_t index = 0; index < PARTIES; index++) {
    parties[index]->tell_version();
    for (size_t at = 0; at < parties[index]->contestants_len; at++)
      contestants[contestants_len++] = &parties[index]->contestants[at];
  }
}

/* What the columns mean. */
static void print_legend(bool hostile) {
  printf("\nnanoseconds a character%s; library / it: the library's least time, in the same encoding, by the least of "
         "this one%s\n", hostile ? ", the least of all rounds" : "; short texts: a text; single lines: a line",
         hostile ? ", in brackets" : "");
  if (!hostile) printf("*: fewer rounds, since they took long\n");
}

static bool is_library(const entrant *entrant) {
  for (size_t index = 0; index < library_party.contestants_len; index++)
    if (entrant->who == &library_party.contestants[index]) return true;
  return false;
}

/* Writes a ratio with as many digits as tell something. */
static void write_ratio(char *written, size_t size, double ratio) {
  int digits = ratio < 0.01 ? 5 : ratio < 0.1 ? 3 : ratio < 10 ? 2 : 0;
  snprintf(written, size, "%.*f", digits, ratio);
}

/* What is in a table instead of a figure. */
static const char *outcome_name(outcome outcome) {
  return outcome == NO_CALL ? "-" : outcome == FAILED ? "failed" : "killed";
}

/* How many characters, short texts or lines the text of an entrant has. */
static double shares(const entrant *entrant, share share) {
  const encoded_text *text = entrant->text;
  return (double)(share == PER_CHARACTER ? text->characters : share == PER_TEXT ? text->pieces_len : text->lines_len);
}

static void print_row(const race *race, const entrant *entrant, const table *table) {
  const figure *figure = &entrant->figures[table->operation];
  const double by = shares(entrant, table->share);
  printf("| %-18s |", entrant->who->name);
  if (figure->outcome != TIMED) {
    printf(" %8s  | %9s | %12s |\n", outcome_name(figure->outcome), "", "");
    return;
  }
  printf(" %8.2f%c | %9.2f |", figure->least / by, figure->cut_short ? '*' : ' ', figure->median / by);
  char ratio[32] = "";
  double library = library_least(race, entrant, table->operation);
  if (!is_library(entrant) && library > 0) write_ratio(ratio, sizeof ratio, library / figure->least);
  printf(" %12s |\n", ratio);
}

static void print_table(const race *race, const table *table) {
  printf("| %-18s | %9s | %9s | %12s |\n", table->name, "least ns", "median ns", "library / it");
  printf("|--------------------|----------:|----------:|-------------:|\n");
  for (size_t index = 0; index < race->entrants_len; index++) print_row(race, &race->entrants[index], table);
  printf("\n");
}

static void race_file(const contest_text *text, size_t rounds) {
  const encoded_text *utf8 = &text->encoded[UTF8];
  printf("\n%s: %zu bytes, %zu characters, %zu paragraphs, %zu lines, %zu short texts\n\n", text->name,
         utf8->length, utf8->characters, text->paragraphs, utf8->lines_len, utf8->pieces_len);
  race race = open_race(text, contestants, contestants_len);
  print_agreement(&race);
  run_race(&race, OPERATIONS, rounds);
  for (size_t at = 0; at < TABLES; at++) print_table(&race, &tables[at]);
  close_race(&race);
}

static void print_cell(const race *race, const entrant *entrant, const table *table) {
  const figure *figure = &entrant->figures[table->operation];
  const double least = figure->least / shares(entrant, table->share);
  char cell[80], ratio[32];
  double library = library_least(race, entrant, table->operation);
  if (figure->outcome != TIMED) snprintf(cell, sizeof cell, "%s", outcome_name(figure->outcome));
  else if (is_library(entrant) || library == 0) snprintf(cell, sizeof cell, "%.2f", least);
  else {
    write_ratio(ratio, sizeof ratio, library / figure->least);
    snprintf(cell, sizeof cell, "%.2f (%s)", least, ratio);
  }
  printf(" %18s |", cell);
}

static void print_hostile_head(const table *table) {
  printf("\n| %-34s |", table->name);
  for (size_t index = 0; index < contestants_len; index++) printf(" %18s |", contestants[index]->name);
  printf("\n|------------------------------------|");
  for (size_t index = 0; index < contestants_len; index++) printf("-------------------:|");
  printf("\n");
}

static void print_hostile(const race *races, const table *table) {
  print_hostile_head(table);
  for (size_t index = 0; index < hostile_texts_len; index++) {
    printf("| %-34s |", races[index].text->name);
    for (size_t at = 0; at < contestants_len; at++)
      print_cell(&races[index], &races[index].entrants[at], table);
    printf("\n");
  }
}

static void race_hostile(size_t rounds) {
  contest_text *texts = room(hostile_texts_len, sizeof(contest_text));
  race *races = room(hostile_texts_len, sizeof(race));
  for (size_t index = 0; index < hostile_texts_len; index++) {
    make_hostile_text(&texts[index], index);
    races[index] = open_race(&texts[index], contestants, contestants_len);
    try_apart(&races[index], HOSTILE_OPERATIONS);
    run_race(&races[index], HOSTILE_OPERATIONS, rounds);
  }
  for (size_t at = 0; at < HOSTILE_TABLES; at++) print_hostile(races, &tables[at]);
  for (size_t index = 0; index < hostile_texts_len; index++) {
    close_race(&races[index]);
    free_text(&texts[index]);
  }
  free(races);
  free(texts);
}

static void refuse(const char *name, const char *why) {
  fprintf(stderr, "bench/peers: %s %s\n", name, why);
  exit(2);
}

static void read_file(contest_text *text, const char *name) {
  FILE *file = fopen(name, "rb");
  if (!file || fseek(file, 0, SEEK_END)) refuse(name, "cannot be read; hand in a file with text of UTF-8");
  long length = ftell(file);
  if (length <= 0) refuse(name, "is empty, and there is nothing to time");
  if (length > LONGEST_FILE) refuse(name, "is longer than 1 GB; hand in a part of it");
  rewind(file);
  uint8_t *bytes = room((size_t)length, 1);
  if (fread(bytes, 1, (size_t)length, file) != (size_t)length) refuse(name, "cannot be read to its end");
  fclose(file);
  if (!make_text(text, name, bytes, (size_t)length)) refuse(name, "is not UTF-8; convert it first, as by iconv");
  free(bytes);
}

static void race_files(char **names, size_t count, size_t rounds) {
  contest_text *texts = room(count, sizeof(contest_text));
  for (size_t index = 0; index < count; index++) read_file(&texts[index], names[index]);
  gather_contestants();
  print_legend(false);
  for (size_t index = 0; index < count; index++) {
    race_file(&texts[index], rounds);
    free_text(&texts[index]);
  }
  free(texts);
}

int main(int count, char **words) {
  int rounds = count > 2 ? atoi(words[1]) : 0;
  if (rounds < 1) refuse("ROUNDS", "is to be a number of at least 1; this program is started by bench/peers");
  keep_pages();
  if (strcmp(words[2], "--hostile") != 0) {
    race_files(words + 2, (size_t)count - 2, (size_t)rounds);
  } else {
    gather_contestants();
    print_legend(true);
    race_hostile((size_t)rounds);
  }
  return 0;
}
