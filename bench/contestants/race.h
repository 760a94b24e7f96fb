/* Contestants over one text: what they disagree in, and how long they take. */
#ifndef RACE_H
#define RACE_H

#include "text.h"

/* Hostile texts have the operations before HOSTILE_OPERATIONS. */
typedef enum {
  ANALYSIS,
  RUNS,
  LINES,
  HOSTILE_OPERATIONS,
  PIECES = HOSTILE_OPERATIONS,
  LINE_RUNS,
  OPERATIONS
} operation;

/* How an operation ended for an entrant. */
typedef enum { TIMED, NO_CALL, FAILED, KILLED } outcome;

typedef struct {
  outcome outcome;
  double least, median; /* nanoseconds */
  bool cut_short;       /* it took so long that it was given fewer rounds */
} figure;

typedef struct {
  const contestant *who;
  const encoded_text *text;
  void *state;
  figure figures[OPERATIONS];
} entrant;

typedef struct {
  const contest_text *text;
  entrant *entrants;
  size_t entrants_len;
} race;

race open_race(const contest_text *text, const contestant *const *contestants, size_t contestants_len);
void close_race(race *race);

/* Tries each operation below `behind` of each entrant in a process of its own, and leaves out those that do not come
 * back in time. */
void try_apart(race *race, operation behind);

/* Times all operations below `behind`, each in so many rounds, in each of which every entrant has its turn. */
void run_race(race *race, operation behind, size_t rounds);

/* The least time of the library in the encoding of an entrant, or 0 where there is none. */
double library_least(const race *race, const entrant *entrant, operation operation);

/* Prints how far each entrant agrees with the library. */
void print_agreement(race *race);

#endif
