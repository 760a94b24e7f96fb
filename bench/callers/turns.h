/* How the programs for C and C++ answer bench/languages.
 *
 * A program is called with the files of the texts, in UTF-8. It first writes a line for each text: its displayed
 * characters as hexadecimal numbers. Then each line that it reads has two numbers, the index of a text and how often to
 * display it. It writes the nanoseconds that this takes. */
#ifndef TURNS_H
#define TURNS_H

#include <stdbool.h>
#include <stddef.h>
#include <stdio.h>
#include <time.h>

/* Displays a text once. Returns whether that succeeds. */
typedef bool (*display_call)(size_t text);

static inline double nanoseconds_now(void) {
  struct timespec time;
  clock_gettime(CLOCK_MONOTONIC, &time);
  return (double)time.tv_sec * 1e9 + (double)time.tv_nsec;
}

/* Answers until the input ends. Returns the exit status. */
static inline int answer_turns(size_t texts, display_call display) {
  size_t text, times;
  fflush(stdout);
  while (scanf("%zu %zu", &text, &times) == 2 && text < texts) {
    double start = nanoseconds_now();
    for (size_t turn = 0; turn < times; turn++)
      if (!display(text)) return 1;
    printf("%.0f\n", nanoseconds_now() - start);
    fflush(stdout);
  }
  return 0;
}

#endif
