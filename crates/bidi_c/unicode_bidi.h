/* The Unicode Bidirectional Algorithm (UAX #9, revision 46) for callers in C and C++. With the package, link
 * libunicode_bidi. Without it, link libbidi_c.a, and after it the kit's liblibc_c.a: the library allocates with it.
 *
 * A call accepts any numbers in its arguments and buffers. It first checks all that the library requires, and
 * returns one of the negative codes below if a check fails. Only pointers can't be checked. The caller must
 * ensure that:
 *
 *   - A pointer that is followed by a length points to that many elements, with the alignment of their type.
 *     If the length is 0, the pointer may be null. This is tested for each such argument, and not proved.
 *   - `paragraph` points to one paragraph, and `shown` and `characters` to one number each, aligned and not null.
 *   - `analyser` points to one analyser, aligned and not null. The section on analysers says what else it must be.
 *   - A buffer that a call writes overlaps no other argument. It may begin where another one ends.
 *   - The text and the tables do not change during the call.
 *
 * The caller owns every buffer. A call keeps nothing: it frees what it allocated with malloc before it returns.
 * Any number of threads may make calls at the same time, each with its own buffers. Only an analyser
 * (unicode_bidi_analyser) keeps memory between calls, until unicode_bidi_free.
 *
 * Units. In the calls that end in utf8 a unit is a byte, in utf16 a code unit of UTF-16, in utf32 a character (a
 * scalar value). Indexes, lengths and ranges count units from 0. The end of a range is exclusive. In UTF-16 an
 * unpaired surrogate is allowed, and is the character U+FFFD.
 *
 * Results. A result of 0 or more is a count, or what the call says. A negative result is a fault: the first one
 * in the order in which the call lists its faults. After a fault every buffer is unchanged. If an allocation
 * fails, UNICODE_BIDI_NO_MEMORY can come in place of a listed fault. A call writes its results to the front of
 * the buffers, and leaves the rest unchanged.
 *
 * What is proved (README, "What is proved"): Each call is safe and returns. It returns the fault that this header
 * says. Without such a fault, only NO_MEMORY is possible. What it writes is what UAX #9 defines, in the library's own
 * definitions. "Proved" below names the definition that each result equals.
 */
#ifndef UNICODE_BIDI_H
#define UNICODE_BIDI_H

#include <stddef.h>
#include <stdint.h>

#ifdef __cplusplus
extern "C" {
#endif

/* The version of the library, and the version of its Unicode data. */
#define UNICODE_BIDI_VERSION_MAJOR 0
#define UNICODE_BIDI_VERSION_MINOR 1
#define UNICODE_BIDI_VERSION_PATCH 0
#define UNICODE_BIDI_UNICODE_VERSION_MAJOR 18
#define UNICODE_BIDI_UNICODE_VERSION_MINOR 0
#define UNICODE_BIDI_UNICODE_VERSION_PATCH 0

/* The same as one number each, as the version calls return them: 10000 * major + 100 * minor + patch. */
#define UNICODE_BIDI_VERSION \
  (10000 * UNICODE_BIDI_VERSION_MAJOR + 100 * UNICODE_BIDI_VERSION_MINOR + UNICODE_BIDI_VERSION_PATCH)
#define UNICODE_BIDI_UNICODE_VERSION \
  (10000 * UNICODE_BIDI_UNICODE_VERSION_MAJOR + 100 * UNICODE_BIDI_UNICODE_VERSION_MINOR \
   + UNICODE_BIDI_UNICODE_VERSION_PATCH)

/* Faults. */
#define UNICODE_BIDI_NO_MEMORY        (-1)  /* an allocation failed */
#define UNICODE_BIDI_NOT_UTF8         (-2)  /* the text, or the given line of it, is not UTF-8 */
#define UNICODE_BIDI_NOT_SCALAR       (-3)  /* a character is above U+10FFFF or a surrogate */
#define UNICODE_BIDI_BAD_BASE_LEVEL   (-4)  /* base is from 126 to 252 */
#define UNICODE_BIDI_BAD_SPLIT        (-5)  /* split is above 2 */
#define UNICODE_BIDI_BAD_CLASS        (-6)  /* a class is above 22 */
#define UNICODE_BIDI_BAD_LEVEL        (-7)  /* a level is above 126 */
#define UNICODE_BIDI_UNEQUAL_LENGTHS  (-8)  /* lists that must have the same length do not */
#define UNICODE_BIDI_BAD_LINE         (-9)  /* not: paragraph start <= start <= end <= paragraph end <= units */
#define UNICODE_BIDI_CUT_CHARACTER    (-10) /* the line begins or ends inside a character */
#define UNICODE_BIDI_UNEVEN_CHARACTER (-11) /* the units of one character differ in class or in level */
#define UNICODE_BIDI_NO_ROOM          (-12) /* a buffer that the call writes is too short */
#define UNICODE_BIDI_BAD_RANGES       (-13) /* a range has first > last, or first <= last of the previous range */
#define UNICODE_BIDI_BAD_BRACKET      (-14) /* not: 0, or a character from U+0020 to U+7FFFF, alone or plus OPENING */
#define UNICODE_BIDI_BAD_FLAGS        (-15) /* flags are not what the call takes: the section on displayed lines */

/* Base levels: a number up to 125 is the level of every paragraph (HL1). With one of these, each paragraph finds its own
 * level (P2, P3). If no character of the paragraph decides, the level is 0 with AUTO and AUTO_LTR, which are the same, and
 * 1 with AUTO_RTL. */
#define UNICODE_BIDI_AUTO     255
#define UNICODE_BIDI_AUTO_LTR 254
#define UNICODE_BIDI_AUTO_RTL 253

/* Where paragraphs end (P1). */
#define UNICODE_BIDI_ONE_PARAGRAPH   0 /* the text is one paragraph, even if it is empty */
#define UNICODE_BIDI_EACH_SEPARATOR  1 /* after each character of class B */
#define UNICODE_BIDI_CR_LF_TOGETHER  2 /* the same, but not between CR and LF */

/* Base directions. */
#define UNICODE_BIDI_LTR   0
#define UNICODE_BIDI_RTL   1
#define UNICODE_BIDI_MIXED 2 /* no character decides the direction */

/* Classes (Bidi_Class). */
enum {
  UNICODE_BIDI_L, UNICODE_BIDI_R, UNICODE_BIDI_AL, UNICODE_BIDI_EN, UNICODE_BIDI_ES, UNICODE_BIDI_ET,
  UNICODE_BIDI_AN, UNICODE_BIDI_CS, UNICODE_BIDI_NSM, UNICODE_BIDI_BN, UNICODE_BIDI_B, UNICODE_BIDI_S,
  UNICODE_BIDI_WS, UNICODE_BIDI_ON, UNICODE_BIDI_LRE, UNICODE_BIDI_LRO, UNICODE_BIDI_RLE,
  UNICODE_BIDI_RLO, UNICODE_BIDI_PDF, UNICODE_BIDI_LRI, UNICODE_BIDI_RLI, UNICODE_BIDI_FSI,
  UNICODE_BIDI_PDI
};

/* The difference between the number of an opening bracket and that of its closing bracket. */
#define UNICODE_BIDI_OPENING 0x80000000u

/* A paragraph: its units, including a separator that ends it, and its level. */
typedef struct {
  size_t start, end;
  uint8_t level;
} unicode_bidi_paragraph;

/* A visual run: a range of units that have one level after L1, and that level. The range is in logical order. A run
 * of an odd level is displayed from right to left. */
typedef struct {
  size_t start, end;
  uint8_t level;
} unicode_bidi_run;

/* A range of characters that have one class, `last` included. Ranges ascend and do not overlap. A character outside all
 * of them has class L. */
typedef struct {
  uint32_t first, last;
  uint8_t class_number;
} unicode_bidi_class_range;

/* A pair of brackets (BD14, BD15). normal_form is the canonical equivalent of the opening bracket, or the opening
 * bracket itself if it has none. */
typedef struct {
  uint32_t opening, closing, normal_form;
} unicode_bidi_bracket_pair;

/* -------- Names --------
 *
 * The names of the numbers above, for messages. These two functions are in this header alone, and not in the library. */

/* Returns the name of a fault without UNICODE_BIDI_, such as "NOT_UTF8", or "UNKNOWN_FAULT" for any other number. */
static inline const char *unicode_bidi_fault_name(int64_t fault) {
  switch (fault) {
    case UNICODE_BIDI_NO_MEMORY: return "NO_MEMORY";
    case UNICODE_BIDI_NOT_UTF8: return "NOT_UTF8";
    case UNICODE_BIDI_NOT_SCALAR: return "NOT_SCALAR";
    case UNICODE_BIDI_BAD_BASE_LEVEL: return "BAD_BASE_LEVEL";
    case UNICODE_BIDI_BAD_SPLIT: return "BAD_SPLIT";
    case UNICODE_BIDI_BAD_CLASS: return "BAD_CLASS";
    case UNICODE_BIDI_BAD_LEVEL: return "BAD_LEVEL";
    case UNICODE_BIDI_UNEQUAL_LENGTHS: return "UNEQUAL_LENGTHS";
    case UNICODE_BIDI_BAD_LINE: return "BAD_LINE";
    case UNICODE_BIDI_CUT_CHARACTER: return "CUT_CHARACTER";
    case UNICODE_BIDI_UNEVEN_CHARACTER: return "UNEVEN_CHARACTER";
    case UNICODE_BIDI_NO_ROOM: return "NO_ROOM";
    case UNICODE_BIDI_BAD_RANGES: return "BAD_RANGES";
    case UNICODE_BIDI_BAD_BRACKET: return "BAD_BRACKET";
    case UNICODE_BIDI_BAD_FLAGS: return "BAD_FLAGS";
    default: return "UNKNOWN_FAULT";
  }
}

/* Returns the name of a class, such as "AL", or "?" for a number that is no class. */
static inline const char *unicode_bidi_class_name(int64_t class_number) {
  switch (class_number) {
    case UNICODE_BIDI_L: return "L";
    case UNICODE_BIDI_R: return "R";
    case UNICODE_BIDI_AL: return "AL";
    case UNICODE_BIDI_EN: return "EN";
    case UNICODE_BIDI_ES: return "ES";
    case UNICODE_BIDI_ET: return "ET";
    case UNICODE_BIDI_AN: return "AN";
    case UNICODE_BIDI_CS: return "CS";
    case UNICODE_BIDI_NSM: return "NSM";
    case UNICODE_BIDI_BN: return "BN";
    case UNICODE_BIDI_B: return "B";
    case UNICODE_BIDI_S: return "S";
    case UNICODE_BIDI_WS: return "WS";
    case UNICODE_BIDI_ON: return "ON";
    case UNICODE_BIDI_LRE: return "LRE";
    case UNICODE_BIDI_LRO: return "LRO";
    case UNICODE_BIDI_RLE: return "RLE";
    case UNICODE_BIDI_RLO: return "RLO";
    case UNICODE_BIDI_PDF: return "PDF";
    case UNICODE_BIDI_LRI: return "LRI";
    case UNICODE_BIDI_RLI: return "RLI";
    case UNICODE_BIDI_FSI: return "FSI";
    case UNICODE_BIDI_PDI: return "PDI";
    default: return "?";
  }
}

/* -------- Versions --------
 *
 * The versions of the library that is linked. They can differ from the macros above, for example with a shared
 * library. The calls do not allocate and have no faults.
 * Proved   the numbers (version_number of VERSION and of UNICODE_VERSION). */

/* Returns the version of the library in the form of UNICODE_BIDI_VERSION: 100 is 0.1.0. */
int64_t unicode_bidi_version(void);

/* Returns the version of Unicode's data in the form of UNICODE_BIDI_UNICODE_VERSION: 180000 is 18.0.0. */
int64_t unicode_bidi_unicode_version(void);

/* -------- Characters, by Unicode's own data --------
 *
 * The calls do not allocate. */

/* Returns the class (Bidi_Class) of a character: UNICODE_BIDI_L to UNICODE_BIDI_PDI.
 * Faults   NOT_SCALAR
 * Proved   the class (class_of of unicode_source). */
int64_t unicode_bidi_class_of(uint32_t character);

/* Returns the number of the bracket that a character is (BD14, BD15), or 0 if it is none. Two brackets of one pair have
 * the same number, except that the opening one has UNICODE_BIDI_OPENING more. The number without it is the opening
 * bracket of the pair, or its canonical equivalent (BD16): U+2329 and U+232A have the numbers of U+3008 and U+3009.
 * Faults   NOT_SCALAR
 * Proved   the number (bracket_number of unicode_source). */
int64_t unicode_bidi_bracket_of(uint32_t character);

/* Returns the mirrored partner of a character (Bidi_Mirroring_Glyph), or the character itself if it has none. By L4 a
 * character at an odd level is displayed as its partner. The few characters that became mirrored after Unicode
 * 15.0 have no partner here, except U+2E62 and U+2E63.
 * Faults   NOT_SCALAR
 * Proved   the partner (mirrored_of). */
int64_t unicode_bidi_mirrored(uint32_t character);

/* Writes the class of each unit's character, and returns the number of units. An FSI has class FSI: X5c is not applied.
 * classes_len   at least text_len
 * Faults   NOT_UTF8, NOT_SCALAR (by the encoding), NO_ROOM
 * Cost     the text
 * Proved   the classes (class_of of unicode_source), each repeated on the units of its character. */
int64_t unicode_bidi_classes_utf8(const uint8_t *text, size_t text_len, uint8_t *classes, size_t classes_len);
int64_t unicode_bidi_classes_utf16(const uint16_t *text, size_t text_len, uint8_t *classes, size_t classes_len);
int64_t unicode_bidi_classes_utf32(const uint32_t *text, size_t text_len, uint8_t *classes, size_t classes_len);

/* Writes the bracket of each unit's character, as the number that unicode_bidi_bracket_of returns, and returns how many
 * units there are.
 * brackets_len  at least text_len
 * Faults   NOT_UTF8, NOT_SCALAR (by the encoding), NO_ROOM
 * Cost     the text
 * Proved   the numbers (bracket_number of unicode_source), each repeated on the units of its character. */
int64_t unicode_bidi_brackets_utf8(const uint8_t *text, size_t text_len, uint32_t *brackets, size_t brackets_len);
int64_t unicode_bidi_brackets_utf16(const uint16_t *text, size_t text_len, uint32_t *brackets, size_t brackets_len);
int64_t unicode_bidi_brackets_utf32(const uint32_t *text, size_t text_len, uint32_t *brackets, size_t brackets_len);

/* Returns the base direction (P2, P3) of characters with these classes, one class for each character: UNICODE_BIDI_LTR,
 * _RTL or _MIXED. With full 0 it is the direction of the first paragraph, otherwise that of the first paragraph that
 * has one. A paragraph ends after each class B.
 * Faults   BAD_CLASS, in any of the classes
 * Cost     the classes
 * Proved   the direction (base_direction, full_base_direction), with the numbers as the characters of a data source in
 *          which the number of a class has that class (numbered_source). */
int64_t unicode_bidi_base_direction_of_classes(const uint8_t *classes, size_t classes_len, uint8_t full);

/* -------- The whole text, by Unicode's own data --------
 *
 * Writes the class and the level (X1 to I2, before L1) of each unit, and the paragraphs. Returns the number of
 * paragraphs. If a character decides the direction of an FSI, the FSI gets class RLI or LRI (X5c).
 *
 * classes_len, levels_len   at least text_len
 * paragraphs_len            at least the number of paragraphs: at most text_len if the text is split, otherwise
 *                           1. With 0 the call only counts them.
 * Faults   NOT_UTF8, NOT_SCALAR (by the encoding), BAD_BASE_LEVEL, BAD_SPLIT, NO_ROOM for classes and
 *          levels, NO_ROOM for paragraphs
 * Cost     the text. Memory: some bytes for each unit. The call does not allocate if the text has up to 256 units, is
 *          one paragraph, and has no bracket and no character that opens an embedding or an isolate.
 * Proved   the classes, the levels and the paragraphs are those of the definitions (text_classes and ranges_from of
 *          bidi_base, stored_levels_with and level_with of unicode_bidi), each repeated on the units of its
 *          character. */
int64_t unicode_bidi_analyse_utf8(const uint8_t *text, size_t text_len, uint8_t base, uint8_t split,
                                  uint8_t *classes, size_t classes_len, uint8_t *levels, size_t levels_len,
                                  unicode_bidi_paragraph *paragraphs, size_t paragraphs_len);
int64_t unicode_bidi_analyse_utf16(const uint16_t *text, size_t text_len, uint8_t base, uint8_t split,
                                   uint8_t *classes, size_t classes_len, uint8_t *levels, size_t levels_len,
                                   unicode_bidi_paragraph *paragraphs, size_t paragraphs_len);
int64_t unicode_bidi_analyse_utf32(const uint32_t *text, size_t text_len, uint8_t base, uint8_t split,
                                   uint8_t *classes, size_t classes_len, uint8_t *levels, size_t levels_len,
                                   unicode_bidi_paragraph *paragraphs, size_t paragraphs_len);

/* Finds the paragraphs of a text (P1) with their levels (P2, P3), and the class of each unit. Finds no level of a unit.
 * Returns the number of paragraphs. The classes are those that unicode_bidi_analyse_* writes (X5c). Each buffer is optional: pass a
 * length of 0 for a part that is not needed. So a caller can count the paragraphs first.
 * Faults   NOT_UTF8, NOT_SCALAR (by the encoding), BAD_BASE_LEVEL, BAD_SPLIT, NO_ROOM of any buffer with a length that is
 *          not 0
 * Room     text_len entries are enough for the classes; for the paragraphs text_len if the text is split, otherwise 1
 * Cost     the text, in less time than an analysis. The call does not allocate if the text has up to 256 units and is one
 *          paragraph without FSI.
 * Proved   the paragraphs and the classes are those of unicode_bidi_analyse_* (analysis_by). */
int64_t unicode_bidi_paragraphs_utf8(const uint8_t *text, size_t text_len, uint8_t base, uint8_t split,
                                     uint8_t *classes, size_t classes_len,
                                     unicode_bidi_paragraph *paragraphs, size_t paragraphs_len);
int64_t unicode_bidi_paragraphs_utf16(const uint16_t *text, size_t text_len, uint8_t base, uint8_t split,
                                      uint8_t *classes, size_t classes_len,
                                      unicode_bidi_paragraph *paragraphs, size_t paragraphs_len);
int64_t unicode_bidi_paragraphs_utf32(const uint32_t *text, size_t text_len, uint8_t base, uint8_t split,
                                      uint8_t *classes, size_t classes_len,
                                      unicode_bidi_paragraph *paragraphs, size_t paragraphs_len);

/* Returns the base direction of the first paragraph: UNICODE_BIDI_LTR, _RTL or _MIXED. If full is not 0, returns the
 * direction of the first paragraph that has one. utf8 and utf32 check the whole text, even if the first character
 * decides.
 * Faults   NOT_UTF8, NOT_SCALAR (by the encoding)
 * Proved   the direction (base_direction, full_base_direction). */
int64_t unicode_bidi_base_direction_utf8(const uint8_t *text, size_t text_len, uint8_t full);
int64_t unicode_bidi_base_direction_utf16(const uint16_t *text, size_t text_len, uint8_t full);
int64_t unicode_bidi_base_direction_utf32(const uint32_t *text, size_t text_len, uint8_t full);

/* Returns the base direction by the first character that decides it: UNICODE_BIDI_LTR, _RTL or _MIXED. For a text
 * without a fault this is what unicode_bidi_base_direction_* returns. The call stops at the deciding character, and
 * with full 0 also at the end of the first paragraph. It reports a fault only if the fault comes before that. What
 * follows does not matter, so the first characters of a long text are enough if they decide. An empty text is _MIXED.
 * Faults   NOT_UTF8, NOT_SCALAR (by the encoding), in the characters that are read
 * Cost     the text up to the deciding character. utf8 checks up to 64 bytes at a time, so at most that many more.
 *          The calls do not allocate.
 * Proved   the direction, and that only the characters before the first fault decide it (first_direction_utf8,
 *          first_direction_utf32, direction_in). */
int64_t unicode_bidi_first_direction_utf8(const uint8_t *text, size_t text_len, uint8_t full);
int64_t unicode_bidi_first_direction_utf16(const uint16_t *text, size_t text_len, uint8_t full);
int64_t unicode_bidi_first_direction_utf32(const uint32_t *text, size_t text_len, uint8_t full);

/* -------- One text after another, in memory that is kept --------
 *
 * An analysis needs several lists. unicode_bidi_analyse_* allocates them for each text, unless the text is short and simple.
 * An analyser keeps their memory for the next text. The caller begins with a zeroed analyser:
 *
 *   unicode_bidi_analyser analyser = {0};
 *
 * The first analysis allocates it, and unicode_bidi_free frees it. Both may be called again at any time.
 *
 * An analyser keeps no text and no result: what a call writes does not depend on the texts before it. It keeps as much
 * memory as the longest of these texts needed. After any fault, NO_MEMORY included, it can analyse the next text.
 *
 * The caller must not change `memory`, and must not copy an analyser and use both copies. A zeroed analyser owns nothing.
 * An analyser may be passed from thread to thread, but only one call at a time may use it. */
typedef struct {
  void *memory;
} unicode_bidi_analyser;

/* Writes what unicode_bidi_analyse_* writes, and returns the same. All that is said of that call holds for these too, except
 * for the cost.
 * Cost     the text. Memory: some bytes for each unit of the longest text so far. The call does not allocate if the analyser
 *          has analysed a text with at least as many units, paragraphs, level runs, open isolates and brackets.
 * Proved   as for unicode_bidi_analyse_*, for any analyser. That the call does not allocate is tested, not proved. */
int64_t unicode_bidi_analyse_with_utf8(unicode_bidi_analyser *analyser,
                                       const uint8_t *text, size_t text_len, uint8_t base, uint8_t split,
                                       uint8_t *classes, size_t classes_len, uint8_t *levels, size_t levels_len,
                                       unicode_bidi_paragraph *paragraphs, size_t paragraphs_len);
int64_t unicode_bidi_analyse_with_utf16(unicode_bidi_analyser *analyser,
                                        const uint16_t *text, size_t text_len, uint8_t base, uint8_t split,
                                        uint8_t *classes, size_t classes_len, uint8_t *levels, size_t levels_len,
                                        unicode_bidi_paragraph *paragraphs, size_t paragraphs_len);
int64_t unicode_bidi_analyse_with_utf32(unicode_bidi_analyser *analyser,
                                        const uint32_t *text, size_t text_len, uint8_t base, uint8_t split,
                                        uint8_t *classes, size_t classes_len, uint8_t *levels, size_t levels_len,
                                        unicode_bidi_paragraph *paragraphs, size_t paragraphs_len);

/* Frees the memory of an analyser, and zeroes it. Does nothing to a zeroed one. */
void unicode_bidi_free(unicode_bidi_analyser *analyser);

/* -------- A whole text by the caller's tables --------
 *
 * If two pairs name a character, the first one counts. Each call reads the tables again.
 * Faults   NOT_SCALAR in a range, NOT_SCALAR in a pair, BAD_CLASS, BAD_RANGES; then those above
 * Cost     the tables and the text
 * Proved   as above, with the tables as the data source (table_source). */
int64_t unicode_bidi_analyse_by_tables_utf8(
    const unicode_bidi_class_range *ranges, size_t ranges_len,
    const unicode_bidi_bracket_pair *brackets, size_t brackets_len,
    const uint8_t *text, size_t text_len, uint8_t base, uint8_t split,
    uint8_t *classes, size_t classes_len, uint8_t *levels, size_t levels_len,
    unicode_bidi_paragraph *paragraphs, size_t paragraphs_len);
int64_t unicode_bidi_analyse_by_tables_utf16(
    const unicode_bidi_class_range *ranges, size_t ranges_len,
    const unicode_bidi_bracket_pair *brackets, size_t brackets_len,
    const uint16_t *text, size_t text_len, uint8_t base, uint8_t split,
    uint8_t *classes, size_t classes_len, uint8_t *levels, size_t levels_len,
    unicode_bidi_paragraph *paragraphs, size_t paragraphs_len);
int64_t unicode_bidi_analyse_by_tables_utf32(
    const unicode_bidi_class_range *ranges, size_t ranges_len,
    const unicode_bidi_bracket_pair *brackets, size_t brackets_len,
    const uint32_t *text, size_t text_len, uint8_t base, uint8_t split,
    uint8_t *classes, size_t classes_len, uint8_t *levels, size_t levels_len,
    unicode_bidi_paragraph *paragraphs, size_t paragraphs_len);
int64_t unicode_bidi_base_direction_by_tables_utf8(
    const unicode_bidi_class_range *ranges, size_t ranges_len,
    const unicode_bidi_bracket_pair *brackets, size_t brackets_len,
    const uint8_t *text, size_t text_len, uint8_t full);
int64_t unicode_bidi_base_direction_by_tables_utf16(
    const unicode_bidi_class_range *ranges, size_t ranges_len,
    const unicode_bidi_bracket_pair *brackets, size_t brackets_len,
    const uint16_t *text, size_t text_len, uint8_t full);
int64_t unicode_bidi_base_direction_by_tables_utf32(
    const unicode_bidi_class_range *ranges, size_t ranges_len,
    const unicode_bidi_bracket_pair *brackets, size_t brackets_len,
    const uint32_t *text, size_t text_len, uint8_t full);

/* -------- The same without a text --------
 *
 * Writes the class and the level (X1 to I2, before L1) of each character, and the paragraphs, by the classes and the
 * brackets of the characters alone. Returns the number of paragraphs. A unit is a character here. If a character decides
 * the direction of an FSI, the FSI gets class RLI or LRI (X5c). A paragraph ends after each class B, unless split is
 * UNICODE_BIDI_ONE_PARAGRAPH: a list of classes has no CR and no LF that could stay together.
 *
 * classes                the class of each character: what unicode_bidi_classes_utf32 writes, or any others
 * brackets               the bracket of each character, as unicode_bidi_brackets_utf32 writes it: 0 for none, otherwise the
 *                        opening bracket of its pair in normal form, a character from U+0020 to U+7FFFF, plus
 *                        UNICODE_BIDI_OPENING if it opens. Two brackets can be a pair (BD16) if their numbers are equal
 *                        without UNICODE_BIDI_OPENING. A bracket counts only where the class is ON.
 * brackets_len           classes_len, or 0: then no character is a bracket
 * stored_len, levels_len at least classes_len
 * paragraphs_len         at least the number of paragraphs: at most classes_len if the text is split, otherwise 1. With
 *                        0 the call only counts them.
 * Faults   UNEQUAL_LENGTHS of classes and brackets, BAD_CLASS, BAD_BRACKET, BAD_BASE_LEVEL, BAD_SPLIT, NO_ROOM for
 *          stored and levels, NO_ROOM for paragraphs
 * Cost     the lists. Memory: some bytes for each character. The call does not allocate for up to 256 characters that
 *          are one paragraph, with no bracket that counts and none that opens an embedding or an isolate.
 * Proved   the classes, the levels and the paragraphs are those of the definitions above, for characters with these
 *          classes and brackets (listed_chars, with class_source as the data source). */
int64_t unicode_bidi_analyse_classes(const uint8_t *classes, size_t classes_len,
                                     const uint32_t *brackets, size_t brackets_len, uint8_t base, uint8_t split,
                                     uint8_t *stored, size_t stored_len, uint8_t *levels, size_t levels_len,
                                     unicode_bidi_paragraph *paragraphs, size_t paragraphs_len);

/* -------- Lines --------
 *
 * Pass the classes and levels that an analysis wrote for the units of the whole text, and the paragraph that contains
 * the line. L1 uses the level of that paragraph. The line is the units from start up to end, and may be empty. A call
 * reads only the line, and for CUT_CHARACTER the units next to its ends, so it costs only the line. The numbers need
 * not come from an analysis: any that pass the checks are allowed.
 *
 * For a line of up to 256 units and 16 visual runs, the calls do not allocate.
 *
 * Every line call checks these faults first: UNEQUAL_LENGTHS of classes and levels, BAD_LINE, BAD_CLASS and
 * BAD_LEVEL in the line, BAD_LEVEL of the paragraph. In the calls that take a text in UTF-8, a line that begins
 * or ends at a continuation byte is CUT_CHARACTER, also if that is the first byte of the text. */

/* Writes the level of each unit of the line after L1. Returns their number, end - start.
 * Faults   further: NO_ROOM
 * Proved   the levels (line_levels). */
int64_t unicode_bidi_line_levels(const uint8_t *classes, size_t classes_len,
                                 const uint8_t *levels, size_t levels_len,
                                 const unicode_bidi_paragraph *paragraph, size_t start, size_t end,
                                 uint8_t *out, size_t out_len);

/* Writes the visual runs of the line from left to right (L2), and returns their number. A run is a maximal range of
 * units of one level after L1, so there are at most end - start. With runs_len 0 the call only counts them.
 * Faults   further: NO_ROOM
 * Proved   the runs (visual_runs) with their levels. */
int64_t unicode_bidi_line_runs(const uint8_t *classes, size_t classes_len,
                               const uint8_t *levels, size_t levels_len,
                               const unicode_bidi_paragraph *paragraph, size_t start, size_t end,
                               unicode_bidi_run *runs, size_t runs_len);

/* Writes the visual order of the line's characters (L2). order[i] is the index of the character at visual index i,
 * counted in characters from the line's first one. Returns the number of characters, at most end - start.
 * Faults   further: UNEQUAL_LENGTHS of the text, CUT_CHARACTER (utf8, utf16), NOT_UTF8, NOT_SCALAR (by the
 *          encoding), NO_ROOM
 * Proved   the order (visual_order) of the levels after L1, where a character has the level of its first unit. */
int64_t unicode_bidi_line_map_utf8(const uint8_t *text, size_t text_len,
                                   const uint8_t *classes, size_t classes_len,
                                   const uint8_t *levels, size_t levels_len,
                                   const unicode_bidi_paragraph *paragraph, size_t start, size_t end,
                                   size_t *order, size_t order_len);
int64_t unicode_bidi_line_map_utf16(const uint16_t *text, size_t text_len,
                                    const uint8_t *classes, size_t classes_len,
                                    const uint8_t *levels, size_t levels_len,
                                    const unicode_bidi_paragraph *paragraph, size_t start, size_t end,
                                    size_t *order, size_t order_len);
int64_t unicode_bidi_line_map_utf32(const uint32_t *text, size_t text_len,
                                    const uint8_t *classes, size_t classes_len,
                                    const uint8_t *levels, size_t levels_len,
                                    const unicode_bidi_paragraph *paragraph, size_t start, size_t end,
                                    size_t *order, size_t order_len);

/* Writes the text of the line from left to right, and returns its length. Give `out` room for end - start units. The
 * call does not mirror characters (L4) and does not move marks (L3). In UTF-16 an unpaired surrogate is unchanged at an
 * even level, and becomes 0xFFFD at an odd one.
 * Faults   further: UNEQUAL_LENGTHS of the text, CUT_CHARACTER (utf8, utf16), NOT_UTF8, NOT_SCALAR (by the
 *          encoding), UNEVEN_CHARACTER (utf8, utf16), NO_ROOM
 * Proved   the text (line_text; in utf32 the characters in their visual_order). */
int64_t unicode_bidi_reorder_line_utf8(const uint8_t *text, size_t text_len,
                                       const uint8_t *classes, size_t classes_len,
                                       const uint8_t *levels, size_t levels_len,
                                       const unicode_bidi_paragraph *paragraph, size_t start, size_t end,
                                       uint8_t *out, size_t out_len);
int64_t unicode_bidi_reorder_line_utf16(const uint16_t *text, size_t text_len,
                                        const uint8_t *classes, size_t classes_len,
                                        const uint8_t *levels, size_t levels_len,
                                        const unicode_bidi_paragraph *paragraph, size_t start, size_t end,
                                        uint16_t *out, size_t out_len);
int64_t unicode_bidi_reorder_line_utf32(const uint32_t *text, size_t text_len,
                                        const uint8_t *classes, size_t classes_len,
                                        const uint8_t *levels, size_t levels_len,
                                        const unicode_bidi_paragraph *paragraph, size_t start, size_t end,
                                        uint32_t *out, size_t out_len);

/* Writes the levels of a line after L1, its visual runs, the order of its characters, and its text from left to right
 * (L2). Returns the number of runs, and writes the number of the line's characters to *characters, which must be
 * aligned and not null. The buffers get what unicode_bidi_line_levels, unicode_bidi_line_runs, unicode_bidi_line_map_*
 * and unicode_bidi_reorder_line_* write. Each buffer is optional: pass a length of 0 for a part that is not needed.
 * After a fault nothing is written, *characters included.
 * Faults   further: UNEQUAL_LENGTHS of the text, CUT_CHARACTER (utf8, utf16), NOT_UTF8, NOT_SCALAR (by the
 *          encoding), UNEVEN_CHARACTER (utf8, utf16), NO_ROOM of any buffer with a length that is not 0
 * Room     end - start entries are enough in each buffer
 * Cost     the line, once. For a line of up to 256 units and 16 visual runs, the call does not allocate.
 * Proved   the levels (line_levels), the runs (visual_runs), the order (visual_order) and the text (line_text; in
 *          utf32 the characters in their visual_order). */
int64_t unicode_bidi_show_line_utf8(const uint8_t *text, size_t text_len,
                                    const uint8_t *classes, size_t classes_len,
                                    const uint8_t *levels, size_t levels_len,
                                    const unicode_bidi_paragraph *paragraph, size_t start, size_t end,
                                    uint8_t *line_levels, size_t line_levels_len,
                                    unicode_bidi_run *runs, size_t runs_len,
                                    size_t *order, size_t order_len,
                                    uint8_t *out, size_t out_len, size_t *characters);
int64_t unicode_bidi_show_line_utf16(const uint16_t *text, size_t text_len,
                                     const uint8_t *classes, size_t classes_len,
                                     const uint8_t *levels, size_t levels_len,
                                     const unicode_bidi_paragraph *paragraph, size_t start, size_t end,
                                     uint8_t *line_levels, size_t line_levels_len,
                                     unicode_bidi_run *runs, size_t runs_len,
                                     size_t *order, size_t order_len,
                                     uint16_t *out, size_t out_len, size_t *characters);
int64_t unicode_bidi_show_line_utf32(const uint32_t *text, size_t text_len,
                                     const uint8_t *classes, size_t classes_len,
                                     const uint8_t *levels, size_t levels_len,
                                     const unicode_bidi_paragraph *paragraph, size_t start, size_t end,
                                     uint8_t *line_levels, size_t line_levels_len,
                                     unicode_bidi_run *runs, size_t runs_len,
                                     size_t *order, size_t order_len,
                                     uint32_t *out, size_t out_len, size_t *characters);

/* Writes the visual order of any items (L2), by their levels after L1. order[i] is the index of the item at visual
 * index i. Returns levels_len. Does not allocate.
 * Faults   BAD_LEVEL, NO_ROOM
 * Proved   the order (visual_order). */
int64_t unicode_bidi_reorder_visual(const uint8_t *levels, size_t levels_len,
                                    size_t *order, size_t order_len);

/* -------- Displayed lines and texts --------
 *
 * A line as a device displays it. The arguments are those of the line calls above, and flags: the sum of one
 * UNICODE_BIDI_MOVE_ number, of UNICODE_BIDI_MIRROR or 0, and of at most one UNICODE_BIDI_DROP_ number. Any other number is
 * BAD_FLAGS. */

/* What L2 moves as a whole. The characters of a cluster stay in the order of the text, at every level. */
#define UNICODE_BIDI_MOVE_CHARACTERS 0 /* each character (L2) */
#define UNICODE_BIDI_MOVE_MARKS      1 /* a character with the marks (NSM) that follow it at its level (L3) */
#define UNICODE_BIDI_MOVE_CLUSTERS   2 /* a grapheme cluster (UAX #29) of the displayed characters */

/* Characters at odd levels are displayed as their partners by Unicode's data (L4), as unicode_bidi_mirrored says. */
#define UNICODE_BIDI_MIRROR 4

/* Which characters are not displayed: without either of these none. The twelve direction controls are ALM, LRM, RLM,
 * LRE, RLE, PDF, LRO, RLO, LRI, RLI, FSI and PDI. Class BN has ZWJ and ZWNJ too, which emoji and Persian words need. */
#define UNICODE_BIDI_DROP_CONTROLS           8 /* the twelve direction controls */
#define UNICODE_BIDI_DROP_BOUNDARY_NEUTRALS 16 /* the same and the characters of class BN */

/* In place of the visual index of a character that is not displayed: the maximum of a size_t. */
#define UNICODE_BIDI_NOWHERE SIZE_MAX

/* Writes a displayed line: its text from left to right (L2 to L4), and two maps. order[i] is the index of the character
 * at visual index i, and places[j] is the visual index of the character j, or UNICODE_BIDI_NOWHERE if it is dropped.
 * Both count characters from the line's first one. Returns the length of the text in units. Writes the number of
 * displayed characters (the entries of order) to *shown, and the number of the line's characters (the entries of places)
 * to *characters. Both must be aligned and not null. Each buffer is optional: pass a length of 0 for a part that is not
 * needed. After a fault nothing is written, *shown and *characters included. In UTF-16 an unpaired surrogate becomes
 * 0xFFFD.
 * Faults   those of a line call; further: UNEQUAL_LENGTHS of the text, CUT_CHARACTER (utf8, utf16), NOT_UTF8,
 *          NOT_SCALAR (by the encoding), UNEVEN_CHARACTER (utf8, utf16), BAD_FLAGS, NO_ROOM of any buffer with a length
 *          that is not 0
 * Room     end - start entries are enough for the maps, and 2 * (end - start) units for the text
 * Cost     the line, except for its order: the number of clusters, times the nesting depth of the ranges that L2
 *          reverses. Memory: a few hundred bytes for each character.
 * Proved   the text (line_text of TextDisplay), the order (shown_order) and the places (places_of). That each
 *          character is in the order at most once, and that the room is enough, is tested, not proved. */
int64_t unicode_bidi_display_line_utf8(const uint8_t *text, size_t text_len,
                                       const uint8_t *classes, size_t classes_len,
                                       const uint8_t *levels, size_t levels_len,
                                       const unicode_bidi_paragraph *paragraph, size_t start, size_t end,
                                       uint32_t flags, uint8_t *out, size_t out_len,
                                       size_t *order, size_t order_len, size_t *places, size_t places_len,
                                       size_t *shown, size_t *characters);
int64_t unicode_bidi_display_line_utf16(const uint16_t *text, size_t text_len,
                                        const uint8_t *classes, size_t classes_len,
                                        const uint8_t *levels, size_t levels_len,
                                        const unicode_bidi_paragraph *paragraph, size_t start, size_t end,
                                        uint32_t flags, uint16_t *out, size_t out_len,
                                        size_t *order, size_t order_len, size_t *places, size_t places_len,
                                        size_t *shown, size_t *characters);
int64_t unicode_bidi_display_line_utf32(const uint32_t *text, size_t text_len,
                                        const uint8_t *classes, size_t classes_len,
                                        const uint8_t *levels, size_t levels_len,
                                        const unicode_bidi_paragraph *paragraph, size_t start, size_t end,
                                        uint32_t flags, uint32_t *out, size_t out_len,
                                        size_t *order, size_t order_len, size_t *places, size_t places_len,
                                        size_t *shown, size_t *characters);

/* Analyses a text and displays it, each paragraph as one line (P1 to L4). The arguments are those of the analysis and of a
 * displayed line. Writes the level of each unit after L1, the displayed text, and the two maps as above: here they count
 * the characters of the whole text. The paragraphs follow one another. The separators (B) at the end of a paragraph follow
 * its displayed content, in the order of the text. Returns the length of the displayed text in units. Writes the number of
 * displayed characters to *shown, and that of all characters to *characters. Each buffer is optional: pass a length of 0 for
 * a part that is not needed. After a fault nothing is written, *shown and *characters included. In UTF-16 an unpaired
 * surrogate becomes 0xFFFD.
 * Faults   NOT_UTF8, NOT_SCALAR (by the encoding), BAD_BASE_LEVEL, BAD_SPLIT, BAD_FLAGS, NO_ROOM of any buffer with a
 *          length that is not 0
 * Room     text_len entries are enough for the levels and the maps, and 2 * text_len units for the displayed text (in utf32
 *          text_len). For the order and the text this is tested, not proved.
 * Cost     the analysis, and that of unicode_bidi_display_line_* for each paragraph. Memory: a few hundred bytes for each
 *          character of the longest paragraph, and some tens for each unit of the text.
 * Proved   the levels (paragraph_levels), the displayed text (paragraph_text), the order (paragraph_order) and the places
 *          (places_of), each paragraph by the definitions of the analysis and of a displayed line. */
int64_t unicode_bidi_display_text_utf8(const uint8_t *text, size_t text_len, uint8_t base, uint8_t split,
                                       uint32_t flags, uint8_t *levels, size_t levels_len, uint8_t *out, size_t out_len,
                                       size_t *order, size_t order_len, size_t *places, size_t places_len,
                                       size_t *shown, size_t *characters);
int64_t unicode_bidi_display_text_utf16(const uint16_t *text, size_t text_len, uint8_t base, uint8_t split,
                                        uint32_t flags, uint8_t *levels, size_t levels_len, uint16_t *out, size_t out_len,
                                        size_t *order, size_t order_len, size_t *places, size_t places_len,
                                        size_t *shown, size_t *characters);
int64_t unicode_bidi_display_text_utf32(const uint32_t *text, size_t text_len, uint8_t base, uint8_t split,
                                        uint32_t flags, uint8_t *levels, size_t levels_len, uint32_t *out, size_t out_len,
                                        size_t *order, size_t order_len, size_t *places, size_t places_len,
                                        size_t *shown, size_t *characters);

/* Writes the two maps of a line (L1 to L3) from classes and levels alone, without a text: a unit is a character here. The
 * lists are those of the whole text, and both maps count from the line's first character. flags is
 * UNICODE_BIDI_MOVE_CHARACTERS or UNICODE_BIDI_MOVE_MARKS, and no character is dropped. Returns the number of entries of order. Each buffer is optional: pass a length of 0 for a part that is not needed.
 * Faults   those of a line call; further: BAD_FLAGS, NO_ROOM of any buffer with a length that is not 0
 * Room     end - start entries are enough for each map (for order this is tested, not proved)
 * Cost     that of unicode_bidi_display_line_utf32
 * Proved   the order (order_by_classes) and the places (places_of). */
int64_t unicode_bidi_line_order(const uint8_t *classes, size_t classes_len,
                                const uint8_t *levels, size_t levels_len,
                                const unicode_bidi_paragraph *paragraph, size_t start, size_t end,
                                uint32_t flags, size_t *order, size_t order_len,
                                size_t *places, size_t places_len);

/* Writes the inverse of a map that a call of this header wrote: places[j] is the first i with order[i] = j, or
 * UNICODE_BIDI_NOWHERE if there is none. An entry of order that is not below places_len is passed over. Pass the number of
 * characters as places_len. Returns places_len. Does not allocate.
 * Cost     both lists
 * Proved   the places (places_of). */
int64_t unicode_bidi_places(const size_t *order, size_t order_len, size_t *places, size_t places_len);

#ifdef __cplusplus
}
#endif

#endif
