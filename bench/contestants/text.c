#include "text.h"
#include <stdlib.h>
#include <string.h>

enum { LINE_LENGTH = 60, PIECE_WORDS = 3, HOSTILE_LENGTH = 65536 };

/* The length of the character of UTF-8 at the front, with its value, or 0 where there is none. */
static size_t read_character(const uint8_t *bytes, size_t length, uint32_t *value) {
  static const uint32_t least[] = {0, 0, 0x80, 0x800, 0x10000};
  const uint8_t first = bytes[0];
  const size_t count = first < 0x80 ? 1 : first < 0xC2 ? 0 : first < 0xE0 ? 2 : first < 0xF0 ? 3 : first < 0xF5 ? 4 : 0;
  if (count == 0 || count > length) return 0;
  *value = count == 1 ? first : first & (0x7Fu >> count);
  for (size_t at = 1; at < count; at++) {
    if ((bytes[at] & 0xC0) != 0x80) return 0;
    *value = *value << 6 | (bytes[at] & 0x3F);
  }
  bool is_scalar = *value >= least[count] && *value <= 0x10FFFF && (*value < 0xD800 || *value > 0xDFFF);
  return is_scalar ? count : 0;
}

static bool count_characters(const uint8_t *bytes, size_t length, size_t *characters) {
  *characters = 0;
  for (size_t at = 0; at < length; (*characters)++) {
    uint32_t value;
    size_t count = read_character(bytes + at, length - at, &value);
    if (count == 0) return false;
    at += count;
  }
  return true;
}

const void *units_from(const encoded_text *text, size_t start) {
  static const size_t sizes[ENCODINGS] = {sizeof(uint8_t), sizeof(uint16_t), sizeof(uint32_t)};
  return (const char *)text->units + start * sizes[text->encoding];
}

static encoded_text encoded_room(encoding encoding, size_t length, size_t size, size_t characters) {
  return (encoded_text){.encoding = encoding,
                        .units = room(length, size),
                        .places = room(characters + 1, sizeof(size_t)),
                        .lines = room(characters, sizeof(unit_range)),
                        .pieces = room(characters, sizeof(unit_range)),
                        .characters = characters};
}

static void add_utf16(encoded_text *text, uint32_t value) {
  uint16_t *units = text->units;
  if (value >= 0x10000) {
    units[text->length++] = (uint16_t)(0xD7C0 + (value >> 10));
    value = 0xDC00 + (value & 0x3FF);
  }
  units[text->length++] = (uint16_t)value;
}

static void encode(contest_text *text, const uint8_t *bytes, size_t length) {
  encoded_text *utf8 = &text->encoded[UTF8], *utf16 = &text->encoded[UTF16], *utf32 = &text->encoded[UTF32];
  memcpy(utf8->units, bytes, length);
  size_t character = 0;
  for (; utf8->length < length; character++) {
    uint32_t value;
    utf8->places[character] = utf8->length;
    utf16->places[character] = utf16->length;
    utf32->places[character] = utf32->length;
    utf8->length += read_character(bytes + utf8->length, length - utf8->length, &value);
    add_utf16(utf16, value);
    ((uint32_t *)utf32->units)[utf32->length++] = value;
  }
  for (encoding each = UTF8; each < ENCODINGS; each++)
    text->encoded[each].places[character] = text->encoded[each].length;
}

/* The characters of class B, which end a paragraph. */
static bool is_separator(uint32_t value) {
  return value == '\n' || value == '\r' || (value >= 0x1C && value <= 0x1E) || value == 0x85 || value == 0x2029;
}

static void add_line(contest_text *text, size_t first, size_t behind) {
  for (encoding each = UTF8; each < ENCODINGS; each++) {
    encoded_text *encoded = &text->encoded[each];
    encoded->lines[encoded->lines_len++] = (unit_range){encoded->places[first], encoded->places[behind]};
  }
}

static void add_piece(contest_text *text, size_t first, size_t behind) {
  for (encoding each = UTF8; each < ENCODINGS; each++) {
    encoded_text *encoded = &text->encoded[each];
    encoded->pieces[encoded->pieces_len++] = (unit_range){encoded->places[first], encoded->places[behind]};
  }
}

/* Whether a paragraph ends behind a character. CR and LF are one separator, so none ends between them. */
static bool ends_paragraph(const encoded_text *utf32, size_t at) {
  const uint32_t *values = utf32->units;
  if (at + 1 == utf32->characters) return true;
  return is_separator(values[at]) && !(values[at] == '\r' && values[at + 1] == '\n');
}

static void cut_lines(contest_text *text) {
  const encoded_text *utf32 = &text->encoded[UTF32];
  size_t first = 0;
  for (size_t at = 0; at < utf32->characters; at++) {
    bool ends = ends_paragraph(utf32, at);
    text->paragraphs += ends;
    if (!ends && at + 1 - first < LINE_LENGTH) continue;
    add_line(text, first, at + 1);
    first = at + 1;
  }
}

/* A word is what stands between blanks. What has no word, such as an empty line, is in no piece. */
static void cut_pieces(contest_text *text) {
  const encoded_text *utf32 = &text->encoded[UTF32];
  const uint32_t *values = utf32->units;
  size_t first = 0, words = 0;
  bool in_word = false;
  for (size_t at = 0; at < utf32->characters; at++) {
    bool ends = ends_paragraph(utf32, at), blank = values[at] == ' ' || is_separator(values[at]);
    words += !blank && !in_word;
    in_word = !blank;
    if (!ends && (words < PIECE_WORDS || in_word)) continue;
    if (words > 0) add_piece(text, first, at + 1);
    first = at + 1;
    words = 0;
    in_word = false;
  }
}

bool make_text(contest_text *text, const char *name, const uint8_t *bytes, size_t length) {
  size_t characters;
  if (!count_characters(bytes, length, &characters)) return false;
  *text = (contest_text){.name = name};
  text->encoded[UTF8] = encoded_room(UTF8, length, sizeof(uint8_t), characters);
  text->encoded[UTF16] = encoded_room(UTF16, length, sizeof(uint16_t), characters);
  text->encoded[UTF32] = encoded_room(UTF32, characters, sizeof(uint32_t), characters);
  encode(text, bytes, length);
  cut_lines(text);
  cut_pieces(text);
  return true;
}

void cut_at_paragraphs(contest_text *text) {
  const encoded_text *utf32 = &text->encoded[UTF32];
  for (encoding each = UTF8; each < ENCODINGS; each++)
    text->encoded[each].lines_len = text->encoded[each].pieces_len = 0;
  size_t first = 0;
  for (size_t at = 0; at < utf32->characters; at++) {
    if (!ends_paragraph(utf32, at)) continue;
    add_line(text, first, at + 1);
    add_piece(text, first, at + 1);
    first = at + 1;
  }
}

void free_text(contest_text *text) {
  for (encoding each = UTF8; each < ENCODINGS; each++) {
    free(text->encoded[each].units);
    free(text->encoded[each].places);
    free(text->encoded[each].lines);
    free(text->encoded[each].pieces);
  }
}

/* A hostile text: what stands in front once, a piece over and over, and a piece behind these as often. Brackets and
 * marks have letters of both directions in front, so that no short way for texts of one direction applies. */
typedef struct {
  const char *name, *front, *piece, *behind;
} hostile_text;

static const hostile_text hostile_texts[] = {
  {"RLE, never closed", "", "\u202B", ""},
  {"RLE and LRE in turn, never closed", "", "\u202B\u202A", ""},
  {"RLI, never closed", "", "\u2067", ""},
  {"RLI, nested and closed", "", "\u2067", "\u2069"},
  {"RLI PDI in pairs", "", "\u2067\u2069", ""},
  {"FSI, never closed", "", "\u2068", ""},
  {"brackets, nested", "a\u05D0", "(", ")"},
  {"brackets in pairs", "a\u05D0", "()", ""},
  {"brackets, never closed", "a\u05D0", "(", ""},
  {"a and a Hebrew letter in turn", "", "a\u05D0", ""},
  {"nonspacing marks", "a\u05D0", "\u0300", ""},
};

const size_t hostile_texts_len = sizeof hostile_texts / sizeof *hostile_texts;

static size_t append(uint8_t *bytes, size_t length, const char *piece, size_t times) {
  for (; times > 0; times--, length += strlen(piece)) memcpy(bytes + length, piece, strlen(piece));
  return length;
}

void make_hostile_text(contest_text *text, size_t index) {
  const hostile_text *hostile = &hostile_texts[index];
  size_t times = (HOSTILE_LENGTH - strlen(hostile->front)) / (strlen(hostile->piece) + strlen(hostile->behind));
  uint8_t *bytes = room(HOSTILE_LENGTH, 1);
  size_t length = append(bytes, 0, hostile->front, 1);
  length = append(bytes, length, hostile->piece, times);
  length = append(bytes, length, hostile->behind, times);
  make_text(text, hostile->name, bytes, length);
  free(bytes);
}
