/* The texts that contestants are given. */
#ifndef TEXT_H
#define TEXT_H

#include "contest.h"

typedef struct {
  const char *name;
  encoded_text encoded[ENCODINGS];
  size_t paragraphs;
} contest_text;

/* Makes a text of bytes in all encodings, in lines of at most 60 characters, and in pieces of at most three words,
 * which stand for short texts. Both begin anew with each paragraph. Returns whether the bytes are UTF-8. If they are
 * not, nothing is to be freed. */
bool make_text(contest_text *text, const char *name, const uint8_t *bytes, size_t length);
void free_text(contest_text *text);

/* Makes each paragraph one line and one piece. */
void cut_at_paragraphs(contest_text *text);

/* The hostile texts, of 64 KB each. */
extern const size_t hostile_texts_len;
void make_hostile_text(contest_text *text, size_t index);

#endif
