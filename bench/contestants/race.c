#define _POSIX_C_SOURCE 200809L
#include "race.h"
#include <stdio.h>
#include <stdlib.h>
#include <sys/wait.h>
#include <time.h>
#include <unistd.h>

/* In nanoseconds. What takes less than SHORTEST_TIMED is repeated within a turn, as long as all of the turn, with the
 * analyses outside the time, stays within LONG_TURN. An entrant that has taken LONGEST has no further round. One that
 * is tried apart has SECONDS_APART. */
static const double SHORTEST_TIMED = 1e6, LONG_TURN = 2e7, LONGEST = 4e9;
enum { SECONDS_APART = 20 };

race open_race(const contest_text *text, const contestant *const *contestants, size_t contestants_len) {
  race opened = {text, room(contestants_len, sizeof(entrant)), contestants_len};
  for (size_t index = 0; index < contestants_len; index++) {
    const contestant *who = contestants[index];
    const encoded_text *encoded = &text->encoded[who->encoding];
    opened.entrants[index] = (entrant){.who = who, .text = encoded, .state = who->open(encoded)};
    figure *figures = opened.entrants[index].figures;
    if (!who->find_runs) figures[RUNS].outcome = NO_CALL;
    if (!who->show_pieces || encoded->pieces_len == 0) figures[PIECES].outcome = NO_CALL;
    if (!who->find_line_runs) figures[LINE_RUNS].outcome = NO_CALL;
  }
  return opened;
}

void close_race(race *race) {
  for (size_t index = 0; index < race->entrants_len; index++)
    race->entrants[index].who->close(race->entrants[index].state);
  free(race->entrants);
}

static double now(void) {
  struct timespec time;
  clock_gettime(CLOCK_MONOTONIC, &time);
  return (double)time.tv_sec * 1e9 + (double)time.tv_nsec;
}

static bool perform(entrant *entrant, operation operation) {
  switch (operation) {
    case ANALYSIS: return entrant->who->analyse(entrant->state);
    case RUNS: return entrant->who->find_runs(entrant->state) >= 0;
    case PIECES: return entrant->who->show_pieces(entrant->state);
    case LINE_RUNS: return entrant->who->find_line_runs(entrant->state) >= 0;
    default: return entrant->who->reorder_lines(entrant->state);
  }
}

/* How long an operation takes, or below 0 where it fails. What is asked about lines begins from an analysis of its
 * own, made outside the time, so that nothing is left over from an earlier round. */
static double time_once(entrant *entrant, operation operation) {
  bool over_analysis = operation != ANALYSIS && operation != PIECES;
  if (over_analysis && !entrant->who->analyse(entrant->state)) return -1;
  double start = now();
  bool done = perform(entrant, operation);
  double end = now();
  return done ? end - start : -1;
}

/* In the process apart an alarm ends what takes too long. */
static outcome outcome_apart(entrant *entrant, operation operation) {
  fflush(stdout);
  pid_t child = fork();
  if (child < 0) return FAILED;
  if (child == 0) {
    alarm(SECONDS_APART);
    _exit(time_once(entrant, operation) < 0);
  }
  int status = 0;
  if (waitpid(child, &status, 0) != child) return FAILED;
  return !WIFEXITED(status) ? KILLED : WEXITSTATUS(status) ? FAILED : TIMED;
}

void try_apart(race *race, operation behind) {
  for (size_t index = 0; index < race->entrants_len; index++)
    for (operation each = ANALYSIS; each < behind; each++) {
      entrant *tried = &race->entrants[index];
      if (tried->figures[each].outcome == TIMED) tried->figures[each].outcome = outcome_apart(tried, each);
    }
}

/* The turns of one entrant at one operation, and how long all of them took, with what is outside the time. */
typedef struct {
  size_t repeats;
  double spent, *samples;
  size_t samples_len;
} turns;

/* One turn: the mean time of its repeats, or below 0 where one failed. */
static double take_turn(entrant *entrant, operation operation, turns *turns) {
  double start = now(), sum = 0;
  for (size_t repeat = 0; repeat < turns->repeats; repeat++) {
    double spent = time_once(entrant, operation);
    if (spent < 0) {
      entrant->figures[operation].outcome = FAILED;
      return -1;
    }
    sum += spent;
  }
  turns->spent += now() - start;
  return sum / (double)turns->repeats;
}

/* The first turn is a warm-up, and tells how often the next ones are to repeat the operation. */
static turns begin_turns(entrant *entrant, operation operation, size_t rounds) {
  turns begun = {.repeats = 1, .samples = room(rounds, sizeof(double))};
  if (entrant->figures[operation].outcome != TIMED) return begun;
  double timed = take_turn(entrant, operation, &begun);
  double by_timed = SHORTEST_TIMED / (timed + 1), by_all = LONG_TURN / (begun.spent + 1);
  begun.repeats = 1 + (size_t)(by_timed < by_all ? by_timed : by_all);
  begun.spent = 0;
  return begun;
}

static int compare_samples(const void *left, const void *right) {
  double first = *(const double *)left, second = *(const double *)right;
  return (first > second) - (first < second);
}

static void end_turns(entrant *entrant, operation operation, turns *turns, size_t rounds) {
  figure *figure = &entrant->figures[operation];
  if (figure->outcome == TIMED) {
    qsort(turns->samples, turns->samples_len, sizeof(double), compare_samples);
    figure->least = turns->samples[0];
    figure->median = turns->samples[turns->samples_len / 2];
    figure->cut_short = turns->samples_len < rounds;
  }
  free(turns->samples);
}

static void race_operation(race *race, operation operation, size_t rounds) {
  turns *all = room(race->entrants_len, sizeof(turns));
  for (size_t index = 0; index < race->entrants_len; index++)
    all[index] = begin_turns(&race->entrants[index], operation, rounds);
  for (size_t round = 0; round < rounds; round++)
    for (size_t index = 0; index < race->entrants_len; index++) {
      entrant *next = &race->entrants[index];
      if (next->figures[operation].outcome == TIMED && all[index].spent < LONGEST)
        all[index].samples[all[index].samples_len++] = take_turn(next, operation, &all[index]);
    }
  for (size_t index = 0; index < race->entrants_len; index++)
    end_turns(&race->entrants[index], operation, &all[index], rounds);
  free(all);
}

void run_race(race *race, operation behind, size_t rounds) {
  for (operation each = ANALYSIS; each < behind; each++) race_operation(race, each, rounds);
}

double library_least(const race *race, const entrant *entrant, operation operation) {
  for (size_t index = 0; index < library_party.contestants_len; index++) {
    const figure *figure = &race->entrants[index].figures[operation];
    if (race->entrants[index].who->encoding == entrant->who->encoding && figure->outcome == TIMED)
      return figure->least;
  }
  return 0;
}
