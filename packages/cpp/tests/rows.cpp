/// Runs the shared test vectors through unicode_bidi.hpp, in UTF-8, UTF-16 and UTF-32, and causes each fault.
///   rows FOLDER DISPLAYED
/// FOLDER is that of the vectors, and DISPLAYED that of the vectors of displayed lines. If exceptions are on, each call is
/// also made in the form that throws.
#include "rows.hpp"
#include "unicode_bidi.hpp"

#include <algorithm>
#include <array>
#include <iterator>
#include <map>
#include <set>
#include <tuple>
#if __cplusplus >= 202002L
#include <ranges>
#endif

namespace bidi = unicode_bidi;
using namespace std::string_view_literals;

namespace {

// ---- Results ----

/// Returns the value of a call of a row. Ends the program if it has a fault.
template <class T>
T value_of(const Row &row, bidi::Result<T> result) {
    if (!result) row.fail(bidi::name(result.error()));
    return *std::move(result);
}

#ifdef UNICODE_BIDI_EXCEPTIONS
/// Checks that the form of a call that throws does what its `try_` form does: the same fault, or none.
template <class Call>
void check_throwing(const Row &row, std::optional<bidi::Fault> wanted, Call call) {
    std::optional<bidi::Fault> found;
    try {
        call();
    } catch (const bidi::Error &error) {
        found = error.fault();
        row.check(error.name() == std::string_view(bidi::name(*found)), "the name of an error");
        row.check(error.code() == static_cast<int>(*found), "the code of an error");
        row.check(std::string_view(error.what()).rfind(error.name(), 0) == 0, "the message of an error");
    }
    row.check(found == wanted, "the form that throws");
}
#endif

/// Checks the fault of a call, in its `try_` form and, if there are exceptions, in the form that throws.
#ifdef UNICODE_BIDI_EXCEPTIONS
#define CHECK_FAULT(row, wanted, try_call, call) \
    do { \
        check_fault(row, wanted, try_call); \
        check_throwing(row, wanted, [&] { static_cast<void>(call); }); \
    } while (0)
#else
#define CHECK_FAULT(row, wanted, try_call, call) check_fault(row, wanted, try_call)
#endif

template <class T>
void check_fault(const Row &row, bidi::Fault wanted, const bidi::Result<T> &result) {
    row.check(!result && result.error() == wanted,
              std::string("wanted ") + bidi::name(wanted) + ", found " + (result ? "none" : bidi::name(result.error())));
}

// ---- Texts in each encoding ----

/// Characters in one encoding, and the index of the first unit of each. The last index is the length.
template <class Char>
struct Encoded {
    std::basic_string<Char> text;
    std::vector<std::size_t> at;
};

template <class Char>
void append(std::basic_string<Char> &text, char32_t c) {
    const auto push = [&text](std::uint32_t unit) { text.push_back(static_cast<Char>(unit)); };
    if constexpr (sizeof(Char) == 4) {
        push(c);
    } else if constexpr (sizeof(Char) == 2) {
        if (c < 0x10000) return push(c);
        push(0xD800 + ((c - 0x10000) >> 10)), push(0xDC00 + ((c - 0x10000) & 0x3FF));
    } else if (c < 0x80) {
        push(c);
    } else if (c < 0x800) {
        push(0xC0 | c >> 6), push(0x80 | (c & 63));
    } else if (c < 0x10000) {
        push(0xE0 | c >> 12), push(0x80 | (c >> 6 & 63)), push(0x80 | (c & 63));
    } else {
        push(0xF0 | c >> 18), push(0x80 | (c >> 12 & 63)), push(0x80 | (c >> 6 & 63)), push(0x80 | (c & 63));
    }
}

template <class Char>
Encoded<Char> encoded(const std::vector<char32_t> &characters) {
    Encoded<Char> result;
    for (const char32_t c : characters) {
        result.at.push_back(result.text.size());
        append(result.text, c);
    }
    result.at.push_back(result.text.size());
    return result;
}

/// Calls `run` with a value of each type of unit in which the characters can be written. An unpaired surrogate can be in
/// UTF-16 only.
template <class Run>
void in_each_encoding(const std::vector<char32_t> &characters, Run run) {
    const bool has_surrogate = std::any_of(characters.begin(), characters.end(), [](char32_t c) { return c - 0xD800 < 0x800; });
    run(char16_t{});
    if (has_surrogate) return;
    run(char{});
    run(char32_t{});
#ifdef __cpp_char8_t
    run(char8_t{});
#endif
}

// ---- The fields of rows ----

/// Returns the characters of a field. If the row has `types` in place of a text, returns a character of each class.
std::vector<char32_t> characters_of(const Row &row, const std::string &key) {
    static const std::map<std::string, char32_t> of_class = {
        {"L", U'a'},      {"R", 0x5D0},     {"AL", 0x627},    {"EN", U'1'},     {"ES", U'+'},     {"ET", U'$'},
        {"AN", 0x660},    {"CS", U','},     {"NSM", 0x301},   {"BN", 0xAD},     {"B", 0x2029},    {"S", U'\t'},
        {"WS", U' '},     {"ON", U'!'},     {"LRE", 0x202A},  {"LRO", 0x202D},  {"RLE", 0x202B},  {"RLO", 0x202E},
        {"PDF", 0x202C},  {"LRI", 0x2066},  {"RLI", 0x2067},  {"FSI", 0x2068},  {"PDI", 0x2069}};
    std::vector<char32_t> characters;
    if (const auto words = row.words(key)) {
        for (const std::string &word : *words) characters.push_back(character_of(row, word));
    } else {
        const auto types = row.words("types");
        row.check(types.has_value(), "no " + key);
        for (const std::string &word : *types) characters.push_back(of_class.at(word));
    }
    return characters;
}

bidi::Class class_of_word(const Row &row, const std::string &word) {
    for (std::uint8_t number = 0; number <= UNICODE_BIDI_PDI; number++)
        if (word == bidi::name(static_cast<bidi::Class>(number))) return static_cast<bidi::Class>(number);
    row.fail(word + " is no class");
}

/// Returns the classes of a field, if the row has it.
std::optional<std::vector<bidi::Class>> classes_of(const Row &row, const std::string &key) {
    const auto words = row.words(key);
    if (!words) return std::nullopt;
    std::vector<bidi::Class> classes;
    for (const std::string &word : *words) classes.push_back(class_of_word(row, word));
    return classes;
}

/// Returns the brackets of a field, if the row has it: each is `none`, `opens (` or `closes (`.
std::optional<std::vector<bidi::Bracket>> brackets_of(const Row &row, const std::string &key) {
    const auto words = row.words(key);
    if (!words) return std::nullopt;
    std::vector<bidi::Bracket> brackets;
    for (std::size_t k = 0; k < words->size(); k++) {
        const std::string &word = (*words)[k];
        if (word == "none") {
            brackets.push_back({0});
            continue;
        }
        row.check((word == "opens" || word == "closes") && k + 1 < words->size(), word + " is no bracket");
        const std::uint32_t normal_form = character_of(row, (*words)[++k]);
        brackets.push_back({word == "opens" ? normal_form | UNICODE_BIDI_OPENING : normal_form});
    }
    return brackets;
}

bidi::BaseLevel base_of(const Row &row) {
    const std::string base = row.get("base").value_or("auto");
    if (base != "auto") return std::stoi(base);
    return row.get("fallback").value_or("0") == "1" ? bidi::BaseLevel::auto_rtl() : bidi::BaseLevel::auto_ltr();
}

/// Returns the options of a displayed line. Those that a row does not have are the defaults.
bidi::DisplayOptions options_of(const Row &row) {
    static const std::map<std::string, bidi::Moves> moves = {
        {"characters", bidi::Moves::characters}, {"marks", bidi::Moves::marks}, {"clusters", bidi::Moves::clusters}};
    static const std::map<std::string, bidi::Dropped> dropped = {{"nothing", bidi::Dropped::nothing},
                                                                 {"controls", bidi::Dropped::controls},
                                                                 {"neutrals", bidi::Dropped::boundary_neutrals}};
    bidi::DisplayOptions options;
    if (const auto word = row.get("moves")) options.moves = moves.at(*word);
    if (const auto word = row.get("dropped")) options.dropped = dropped.at(*word);
    return options;
}

bidi::Split split_of(const Row &row) {
    const std::string split = row.get("split").value_or("each-separator");
    if (split == "each-separator") return bidi::Split::each_separator;
    if (split == "cr-lf-together") return bidi::Split::cr_lf_together;
    row.check(split == "whole", split + " is no split rule");
    return bidi::Split::one_paragraph;
}

bidi::Direction direction_of(const Row &row, const std::string &key) {
    const auto word = row.get(key);
    if (word == "ltr") return bidi::Direction::ltr;
    if (word == "rtl") return bidi::Direction::rtl;
    row.check(word == "mixed", key + " is no direction");
    return bidi::Direction::mixed;
}

/// The tables of a row of kind `source`.
struct Source {
    std::vector<bidi::ClassRange> ranges;
    std::vector<bidi::BracketPair> brackets;

    bidi::Tables tables() const { return {ranges, brackets}; }

    /// Returns the class of a character.
    bidi::Class class_of(char32_t c) const {
        for (const auto &range : ranges)
            if (range.first <= c && c <= range.last) return static_cast<bidi::Class>(range.class_number);
        return bidi::Class::L;
    }

    /// Returns the bracket that a character is.
    bidi::Bracket bracket_of(char32_t c) const {
        for (const auto &pair : brackets) {
            if (pair.opening == c) return {pair.normal_form | UNICODE_BIDI_OPENING};
            if (pair.closing == c) return {pair.normal_form};
        }
        return {0};
    }
};

std::map<std::string, Source> sources;

const Source &source_of(const Row &row) {
    const auto found = sources.find(row.get("source").value_or("sample"));
    row.check(found != sources.end(), "no source of this name comes before it");
    return found->second;
}

bidi::Tables tables_of(const Row &row) { return source_of(row).tables(); }

/// Checks that each unit has what a field lists for its character, if the row has the field. A dash fits anything.
template <class Char, class List, class Word>
void check_units(const Row &row, const std::string &key, const Encoded<Char> &encoded, const List &found, Word word) {
    const auto wanted = row.words(key);
    if (!wanted) return;
    row.check(wanted->size() + 1 == encoded.at.size() && found.size() == encoded.text.size(), "the number of " + key);
    for (std::size_t k = 0; k < wanted->size(); k++)
        for (std::size_t unit = encoded.at[k]; unit < encoded.at[k + 1]; unit++)
            row.check((*wanted)[k] == "-" || (*wanted)[k] == word(found[unit]), key + " of character " + std::to_string(k));
}

std::string class_word(bidi::Class bidi_class) { return bidi::name(bidi_class); }
std::string level_word(bidi::Level level) { return std::to_string(level); }

template <class Char>
std::size_t index_of(const Row &row, const Encoded<Char> &encoded, std::size_t character) {
    row.check(character < encoded.at.size(), "no character " + std::to_string(character));
    return encoded.at[character];
}

// ---- Kinds of rows ----

/// Checks the ranges and levels of paragraphs.
template <class Char>
void check_paragraphs(const Row &row, const Encoded<Char> &in, bidi::Span<const unicode_bidi_paragraph> paragraphs) {
    const auto wanted = row.words("paragraphs");
    if (!wanted) return;
    row.check(wanted->size() == paragraphs.size(), "the number of paragraphs");
    for (std::size_t k = 0; k < wanted->size(); k++) {
        const auto parts = split_at((*wanted)[k], ':');
        const auto range = range_of(row, parts[0]);
        row.check(paragraphs[k].start == index_of(row, in, range.first) && paragraphs[k].end == index_of(row, in, range.second) &&
                      level_word(paragraphs[k].level) == parts.at(1),
                  "paragraph " + (*wanted)[k]);
    }
}

/// Checks the paragraphs that are found without levels, by Unicode's data. An analysis has the same.
template <class Char>
void check_found_paragraphs(const Row &row, const Encoded<Char> &in) {
    const auto found = value_of(row, bidi::try_paragraphs(in.text, base_of(row), split_of(row)));
    const auto text = value_of(row, bidi::try_analyse(in.text, base_of(row), split_of(row)));
    row.check(std::equal(found.classes.begin(), found.classes.end(), text.classes().begin(), text.classes().end()),
              "the classes of paragraphs");
    const auto is_same = [](const unicode_bidi_paragraph &a, const bidi::Paragraph<Char> &b) {
        return a.start == b.start() && a.end == b.end() && a.level == b.level();
    };
    row.check(std::equal(found.paragraphs.begin(), found.paragraphs.end(), text.paragraphs().begin(),
                         text.paragraphs().end(), is_same),
              "the paragraphs of an analysis");
    static bidi::Analyser analyser; // serves every row
    const auto kept = value_of(row, bidi::try_analyse(analyser, in.text, base_of(row), split_of(row)));
    row.check(std::equal(kept.classes().begin(), kept.classes().end(), text.classes().begin(), text.classes().end()) &&
                  std::equal(kept.levels().begin(), kept.levels().end(), text.levels().begin(), text.levels().end()) &&
                  kept.paragraphs().size() == text.paragraphs().size(),
              "an analysis in memory that is kept");
}

/// Checks the analysis of the classes and brackets of characters, without their text.
void check_classes(const Row &row, const std::vector<char32_t> &characters) {
    const auto in = encoded<char32_t>(characters);
    std::vector<bidi::Class> classes;
    std::vector<bidi::Bracket> brackets;
    for (const char32_t c : characters) {
        classes.push_back(source_of(row).class_of(c));
        brackets.push_back(source_of(row).bracket_of(c));
    }
    const auto found = value_of(row, bidi::try_analyse_classes(classes, brackets, base_of(row), split_of(row)));
    check_units(row, "classes", in, found.classes, class_word);
    check_units(row, "levels", in, found.levels, level_word);
    check_paragraphs(row, in, found.paragraphs);
#ifdef UNICODE_BIDI_EXCEPTIONS
    const auto same = bidi::analyse_classes(classes, brackets, base_of(row), split_of(row));
    row.check(std::equal(same.levels.begin(), same.levels.end(), found.levels.begin(), found.levels.end()),
              "the form that throws");
#endif
}

template <class Char>
void check_text(const Row &row, const std::vector<char32_t> &characters) {
    const auto in = encoded<Char>(characters);
    const auto text = value_of(row, bidi::try_analyse(tables_of(row), in.text, base_of(row), split_of(row)));
    row.check(text.text().data() == in.text.data() && text.text().size() == in.text.size(), "the text is viewed in place");
    check_units(row, "classes", in, text.classes(), class_word);
    check_units(row, "levels", in, text.levels(), level_word);
    std::size_t end = 0;
    std::vector<unicode_bidi_paragraph> paragraphs;
    for (const auto paragraph : text.paragraphs()) {
        row.check(paragraph.start() == end, "paragraphs follow each other");
        end = paragraph.end();
        paragraphs.push_back({paragraph.start(), end, paragraph.level()});
    }
    row.check(end == in.text.size(), "paragraphs end with the text");
    check_paragraphs(row, in, paragraphs);
    check_found_paragraphs(row, in);
}

void run_text(const Row &row) {
    const auto characters = characters_of(row, "text");
    in_each_encoding(characters, [&](auto unit) { check_text<decltype(unit)>(row, characters); });
    // A list of classes has no CR and no LF that could stay together.
    if (split_of(row) != bidi::Split::cr_lf_together) check_classes(row, characters);
#ifdef UNICODE_BIDI_EXCEPTIONS
    const auto utf16 = encoded<char16_t>(characters);
    check_throwing(row, std::nullopt, [&] { bidi::Text text(tables_of(row), utf16.text, base_of(row), split_of(row)); });
#endif
}

/// Checks the runs of a line. Their levels are those of their first units after L1.
template <class Char>
void check_runs(const Row &row, const Encoded<Char> &in, const bidi::Line<Char> &line, const bidi::Array<bidi::Run> &runs,
                const bidi::Array<bidi::Level> &levels) {
    const auto wanted = row.words("runs");
    if (!wanted) return;
    row.check(wanted->size() == runs.size(), "the number of runs");
    for (std::size_t k = 0; k < runs.size(); k++) {
        const auto range = range_of(row, (*wanted)[k]);
        const bidi::Run &run = runs[k];
        row.check(run.start == index_of(row, in, range.first) && run.end == index_of(row, in, range.second), "run " + (*wanted)[k]);
        row.check(run.level == levels[run.start - line.start()] && run.is_rtl() == (run.level % 2 == 1), "the level of a run");
        row.check(line.text(run) == std::basic_string_view<Char>(in.text).substr(run.start, run.size()), "the text of a run");
    }
}

/// Checks that one call returns the parts that the calls for each part return.
template <class Char>
void check_shown(const Row &row, const bidi::Line<Char> &line, const bidi::Array<bidi::Level> &levels,
                 const bidi::Array<bidi::Run> &runs, const bidi::Array<std::size_t> &order,
                 const std::basic_string<Char> &displayed) {
    using bidi::Parts;
    for (unsigned number = 0; number <= static_cast<unsigned>(Parts::all); number++) {
        const auto parts = static_cast<Parts>(number);
        const auto shown = value_of(row, line.try_shown(parts));
        const auto is_same = [](const auto &a, const auto &b) { return std::equal(a.begin(), a.end(), b.begin(), b.end()); };
        const auto is_same_run = [](const bidi::Run &a, const bidi::Run &b) {
            return std::tie(a.start, a.end, a.level) == std::tie(b.start, b.end, b.level);
        };
        row.check(shown.run_count == runs.size() && shown.character_count == order.size(), "the counts of a shown line");
        row.check(has(parts, Parts::levels) ? is_same(shown.levels, levels) : shown.levels.empty(), "shown levels");
        row.check(has(parts, Parts::runs)
                      ? std::equal(shown.runs.begin(), shown.runs.end(), runs.begin(), runs.end(), is_same_run)
                      : shown.runs.empty(),
                  "shown runs");
        row.check(has(parts, Parts::order) ? is_same(shown.order, order) : shown.order.empty(), "shown order");
        row.check(has(parts, Parts::displayed) ? shown.displayed == displayed : shown.displayed.empty(), "shown text");
    }
}

template <class Char>
void check_line(const Row &row, const std::vector<char32_t> &characters) {
    const auto in = encoded<Char>(characters);
    const auto text = value_of(row, bidi::try_analyse(tables_of(row), in.text, base_of(row)));
    row.check(!text.paragraphs().empty(), "no paragraph");
    const auto first = text.paragraphs()[0];
    const auto range = range_of(row, row.get("line").value_or("0.." + std::to_string(characters.size())));
    const std::size_t start = index_of(row, in, range.first), end = index_of(row, in, range.second);
    const auto level = row.get("paragraph") ? static_cast<bidi::Level>(std::stoul(*row.get("paragraph"))) : first.level();
    const bidi::Line<Char> line(text.text(), text.classes(), text.levels(), {first.start(), first.end(), level}, start, end);
    check_units(row, "levels", in, text.levels(), level_word);

    const auto levels = value_of(row, line.try_levels());
    row.check(levels.size() == end - start, "the number of levels");
    std::vector<bidi::Level> all(text.levels().begin(), text.levels().end());
    std::copy(levels.begin(), levels.end(), all.begin() + static_cast<std::ptrdiff_t>(start));
    check_units(row, "after", in, all, level_word);
    const auto runs = value_of(row, line.try_runs());
    check_runs(row, in, line, runs, levels);

    const auto order = value_of(row, line.try_order());
    const auto displayed = value_of(row, line.try_displayed());
    check_shown(row, line, levels, runs, order, displayed);
    row.check(order.size() == range.second - range.first, "the number of characters");
    if (!row.get("shown")) return;
    const auto shown = characters_of(row, "shown");
    row.check(displayed == encoded<Char>(shown).text, "the displayed text");
    std::vector<Char> buffer(displayed.size() + 1, Char{1});
    row.check(value_of(row, line.try_displayed_into(buffer)) == displayed.size() && buffer.back() == Char{1} &&
                  std::equal(displayed.begin(), displayed.end(), buffer.begin()),
              "the displayed text in a buffer");
    for (std::size_t k = 0; k < order.size(); k++) {
        const char32_t c = characters.at(range.first + order[k]);
        row.check(c == shown.at(k) || c - 0xD800 < 0x800, "the character at visual position " + std::to_string(k));
    }
#ifdef UNICODE_BIDI_EXCEPTIONS
    row.check(line.displayed() == displayed && line.runs().size() == runs.size() && line.levels().size() == levels.size() &&
                  line.order().size() == order.size() && line.shown().displayed == displayed &&
                  line.displayed_into(buffer) == displayed.size(),
              "the forms that throw");
#endif
}

void run_line(const Row &row) {
    const auto characters = characters_of(row, "text");
    in_each_encoding(characters, [&](auto unit) { check_line<decltype(unit)>(row, characters); });
}

/// Checks the order of a row, and its places: those of a call, if there are any, and those that invert the order.
void check_maps(const Row &row, const bidi::Array<std::size_t> &order, const bidi::Array<std::size_t> *places) {
    const auto wanted = row.words("order"), wanted_places = row.words("places");
    row.check(wanted && wanted_places && wanted->size() == order.size() && wanted_places->size() == order.size(),
              "the number of characters");
    const auto inverse = value_of(row, bidi::try_places(order, order.size()));
    for (std::size_t k = 0; k < order.size(); k++) {
        row.check(std::to_string(order[k]) == (*wanted)[k], "order");
        row.check(std::to_string(inverse[k]) == (*wanted_places)[k], "places that invert the order");
        row.check(!places || std::to_string((*places)[k]) == (*wanted_places)[k], "places");
    }
}

template <class Char>
void check_line_map(const Row &row, const std::vector<char32_t> &characters) {
    const auto in = encoded<Char>(characters);
    const auto text = value_of(row, bidi::try_analyse(tables_of(row), in.text, base_of(row)));
    const auto range = range_of(row, row.get("line").value());
    const auto line = text.paragraphs()[0].line(index_of(row, in, range.first), index_of(row, in, range.second));
    check_maps(row, value_of(row, line.try_order()), nullptr);
    if constexpr (sizeof(Char) == 4) {
        const auto level = text.paragraphs()[0].level();
        const unicode_bidi_paragraph paragraph = {0, in.text.size(), level};
        const auto maps = value_of(row, bidi::try_line_order(text.classes(), text.levels(), paragraph, line.start(), line.end()));
        check_maps(row, maps.order, &maps.places);
    }
}

void run_line_map(const Row &row) {
    const auto characters = characters_of(row, "text");
    in_each_encoding(characters, [&](auto unit) { check_line_map<decltype(unit)>(row, characters); });
}

/// Checks what is displayed of some characters: its text, and that both maps fit it and each other.
template <class Char>
void check_displayed(const Row &row, const std::vector<char32_t> &characters, const bidi::DisplayedLine<Char> &displayed) {
    const auto shown = characters_of(row, "shown");
    row.check(displayed.text == encoded<Char>(shown).text, "the displayed text");
    row.check(displayed.order.size() == shown.size() && displayed.places.size() == characters.size(), "the lengths of the maps");
    for (std::size_t k = 0; k < shown.size(); k++) {
        const char32_t c = characters.at(displayed.order[k]);
        row.check(shown[k] == c || c - 0xD800 < 0x800 || shown[k] == value_of(row, bidi::try_mirrored(c)),
                  "the character at visual index " + std::to_string(k));
    }
    const auto places = value_of(row, bidi::try_places(displayed.order, characters.size()));
    row.check(std::equal(places.begin(), places.end(), displayed.places.begin(), displayed.places.end()), "the places");
    row.check(static_cast<std::size_t>(std::count(places.begin(), places.end(), bidi::nowhere)) == characters.size() - shown.size(),
              "the number of characters that are not displayed");
}

template <class Char>
void check_displayed_line(const Row &row, const std::vector<char32_t> &characters) {
    const auto in = encoded<Char>(characters);
    const auto text = value_of(row, bidi::try_analyse(in.text, base_of(row), bidi::Split::one_paragraph));
    const auto range = range_of(row, row.get("line").value_or("0.." + std::to_string(characters.size())));
    const auto line = text.paragraphs()[0].line(index_of(row, in, range.first), index_of(row, in, range.second));
    const auto at = [&](std::size_t k) { return characters.begin() + static_cast<std::ptrdiff_t>(k); };
    const std::vector<char32_t> of_line(at(range.first), at(range.second));
    check_units(row, "levels", encoded<Char>(of_line), value_of(row, line.try_levels()), level_word);
    if (!row.get("shown")) return;
    check_displayed(row, of_line, value_of(row, line.try_display(options_of(row))));
#ifdef UNICODE_BIDI_EXCEPTIONS
    check_displayed(row, of_line, line.display(options_of(row)));
#endif
}

void run_displayed_line(const Row &row) {
    const auto characters = characters_of(row, "text");
    in_each_encoding(characters, [&](auto unit) { check_displayed_line<decltype(unit)>(row, characters); });
}

template <class Char>
void check_displayed_text(const Row &row, const std::vector<char32_t> &characters) {
    const auto in = encoded<Char>(characters);
    const auto displayed = value_of(row, bidi::try_display(in.text, options_of(row), base_of(row), split_of(row)));
    check_displayed(row, characters, displayed);
    const auto text = value_of(row, bidi::try_analyse(in.text, base_of(row), split_of(row)));
    std::vector<bidi::Level> levels;
    for (const auto paragraph : text.paragraphs())
        for (const bidi::Level level : value_of(row, paragraph.try_levels())) levels.push_back(level);
    row.check(std::equal(levels.begin(), levels.end(), displayed.levels.begin(), displayed.levels.end()), "levels after L1");
    check_paragraphs(row, in, value_of(row, bidi::try_paragraphs(in.text, base_of(row), split_of(row))).paragraphs);
#ifdef UNICODE_BIDI_EXCEPTIONS
    check_displayed(row, characters, bidi::display(in.text, options_of(row), base_of(row), split_of(row)));
    check_paragraphs(row, in, bidi::paragraphs(in.text, base_of(row), split_of(row)).paragraphs);
#endif
}

void run_displayed_text(const Row &row) {
    const auto characters = characters_of(row, "text");
    in_each_encoding(characters, [&](auto unit) { check_displayed_text<decltype(unit)>(row, characters); });
}

std::vector<bidi::Level> levels_of(const Row &row) {
    std::vector<bidi::Level> levels;
    const auto words = row.words("levels");
    row.check(words.has_value(), "no levels");
    for (const std::string &word : *words) levels.push_back(static_cast<bidi::Level>(std::stoul(word)));
    return levels;
}

void run_order(const Row &row) {
    const auto levels = levels_of(row);
    const auto order = value_of(row, bidi::try_reorder_visual(levels));
    const auto wanted = row.words("order");
    row.check(wanted && wanted->size() == order.size(), "the number of items");
    for (std::size_t k = 0; k < order.size(); k++) row.check(std::to_string(order[k]) == (*wanted)[k], "order");
}

/// A row of levels is a line of letters, so that L1 changes none.
void run_visual_runs(const Row &row) {
    const auto levels = levels_of(row);
    const std::vector<bidi::Class> classes(levels.size(), bidi::Class::L);
    const auto in = encoded<char32_t>(std::vector<char32_t>(levels.size(), U'a'));
    const auto range = range_of(row, row.get("line").value());
    const bidi::Line<char32_t> line(in.text, classes, levels, {0, levels.size(), 0}, range.first, range.second);
    check_runs(row, in, line, value_of(row, line.try_runs()), value_of(row, line.try_levels()));
}

constexpr std::array searches = {bidi::Search::first_paragraph, bidi::Search::all_paragraphs};

bidi::Direction wanted_direction(const Row &row, bidi::Search search) {
    return direction_of(row, search == bidi::Search::first_paragraph ? "first" : "full");
}

void check_direction_of_classes(const Row &row, bidi::Span<const bidi::Class> classes, bidi::Search search, bidi::Direction wanted) {
    row.check(value_of(row, bidi::try_base_direction_of_classes(classes, search)) == wanted, "by classes");
#ifdef UNICODE_BIDI_EXCEPTIONS
    row.check(bidi::base_direction_of_classes(classes, search) == wanted, "by classes, in the form that throws");
#endif
}

/// The characters of these rows have the same classes in the sample as in Unicode's data.
template <class Char>
void check_direction(const Row &row, const std::vector<char32_t> &characters) {
    const auto in = encoded<Char>(characters);
    for (const bidi::Search search : searches) {
        const auto wanted = wanted_direction(row, search);
        row.check(value_of(row, bidi::try_base_direction(in.text, search)) == wanted, "by Unicode's data");
        row.check(value_of(row, bidi::try_base_direction(tables_of(row), in.text, search)) == wanted, "by tables");
        row.check(value_of(row, bidi::try_first_direction(in.text, search)) == wanted, "by the first character that decides");
        if constexpr (sizeof(Char) == 4) {
            const auto classes = value_of(row, bidi::try_classes(in.text));
            check_direction_of_classes(row, classes, search, wanted);
        }
#ifdef UNICODE_BIDI_EXCEPTIONS
        row.check(bidi::base_direction(in.text, search) == wanted && bidi::first_direction(in.text, search) == wanted &&
                      bidi::base_direction(tables_of(row), in.text, search) == wanted,
                  "the forms that throw");
#endif
    }
}

void run_direction(const Row &row) {
    const auto characters = characters_of(row, "text");
    in_each_encoding(characters, [&](auto unit) { check_direction<decltype(unit)>(row, characters); });
    if (const auto classes = classes_of(row, "types"))
        for (const bidi::Search search : searches) check_direction_of_classes(row, *classes, search, wanted_direction(row, search));
}

/// Checks that each unit of a character has the class and the bracket of the character.
template <class Char>
void check_character_in_text(const Row &row, char32_t character) {
    const auto in = encoded<Char>({U'a', character});
    const auto classes = value_of(row, bidi::try_classes(in.text));
    const auto brackets = value_of(row, bidi::try_brackets(in.text));
    row.check(classes.size() == in.text.size() && brackets.size() == in.text.size(), "the number of units");
    row.check(classes[0] == bidi::Class::L && !brackets[0], "the letter before it");
    for (std::size_t unit = 1; unit < in.text.size(); unit++)
        row.check(classes[unit] == value_of(row, bidi::try_class_of(character)) &&
                      brackets[unit].number == value_of(row, bidi::try_bracket_of(character)).number,
                  "the class or the bracket of a unit");
}

void run_character(const Row &row) {
    const char32_t character = character_of(row, row.get("character").value());
    if (const auto wanted = row.get("class"))
        row.check(value_of(row, bidi::try_class_of(character)) == class_of_word(row, *wanted), "class");
    if (const auto wanted = brackets_of(row, "bracket")) {
        const bidi::Bracket bracket = value_of(row, bidi::try_bracket_of(character)), first = wanted->at(0);
        row.check(wanted->size() == 1 && static_cast<bool>(bracket) == static_cast<bool>(first) &&
                      bracket.opens() == first.opens() && bracket.normal_form() == first.normal_form(),
                  "bracket");
    }
    if (const auto wanted = row.get("mirrored")) {
        const char32_t partner = *wanted == "none" ? character : character_of(row, *wanted);
        row.check(value_of(row, bidi::try_mirrored(character)) == partner, "mirrored");
    }
    in_each_encoding({character}, [&](auto unit) { check_character_in_text<decltype(unit)>(row, character); });
#ifdef UNICODE_BIDI_EXCEPTIONS
    check_throwing(row, std::nullopt, [&] { bidi::class_of(character), bidi::bracket_of(character), bidi::mirrored(character); });
#endif
}

template <class Char>
void check_characters(const Row &row, const std::vector<char32_t> &characters) {
    const auto in = encoded<Char>(characters);
    const auto classes = value_of(row, bidi::try_classes(in.text));
    check_units(row, "classes", in, classes, class_word);
    const auto brackets = value_of(row, bidi::try_brackets(in.text));
    const auto wanted = brackets_of(row, "brackets");
    row.check(wanted && wanted->size() == characters.size() && brackets.size() == in.text.size(), "the number of brackets");
    for (std::size_t k = 0; k < characters.size(); k++)
        for (std::size_t unit = in.at[k]; unit < in.at[k + 1]; unit++)
            row.check(brackets[unit].number == (*wanted)[k].number, "the bracket of character " + std::to_string(k));
#ifdef UNICODE_BIDI_EXCEPTIONS
    row.check(bidi::classes(in.text).size() == classes.size() && bidi::brackets(in.text).size() == brackets.size(), "the forms that throw");
#endif
}

void run_characters(const Row &row) {
    const auto characters = characters_of(row, "text");
    in_each_encoding(characters, [&](auto unit) { check_characters<decltype(unit)>(row, characters); });
}

/// Keeps the tables of a source for later rows. Tables that are rejected must cause BAD_RANGES.
void run_source(const Row &row) {
    Source source;
    for (const auto &[key, value] : row.fields) {
        const auto words = words_of(value);
        if (key == "range") {
            const std::size_t dots = words[0].find("..");
            source.ranges.push_back(bidi::class_range(character_of(row, words[0].substr(0, dots)), character_of(row, words[0].substr(dots + 2)),
                                                      class_of_word(row, words.at(1))));
        } else if (key == "bracket") {
            const char32_t opening = character_of(row, words[0]), closing = character_of(row, words.at(1));
            source.brackets.push_back(words.size() > 2 ? bidi::bracket_pair(opening, closing, character_of(row, words[2]))
                                                       : bidi::bracket_pair(opening, closing));
        }
    }
    if (row.get("fault").value_or("none") != "none")
        CHECK_FAULT(row, bidi::Fault::bad_ranges, bidi::try_analyse(source.tables(), "a"), bidi::Text(source.tables(), "a"));
    else
        sources[row.name] = source;
}

/// Runs the rows of a file that are about a call of the library. Prints how many, and the kinds that it leaves out.
void run_file(const std::string &folder, const std::string &file) {
    static const std::map<std::string, void (*)(const Row &)> kinds = {
        {"text", run_text},     {"line", run_line},
        {"order", run_order},   {"line map", run_line_map},
        {"source", run_source}, {"visual runs", run_visual_runs},
        {"base direction", run_direction}, {"character of Unicode", run_character},
        {"characters of Unicode", run_characters}, {"format character", run_character},
        {"displayed line", run_displayed_line}, {"displayed text", run_displayed_text}};
    const auto rows = read_rows(folder, file);
    std::size_t count = 0;
    std::set<std::string> left_out;
    for (const Row &row : rows) {
        const auto kind = kinds.find(row.kind);
        if (kind == kinds.end()) {
            left_out.insert(row.kind);
            continue;
        }
        kind->second(row);
        count++;
    }
    if (count == 0) fail(file + ": no row ran");
    std::string without;
    for (const std::string &kind : left_out) without += (without.empty() ? ", without: " : ", ") + kind;
    std::printf("%s: %zu of %zu rows%s\n", file.c_str(), count, rows.size(), without.c_str());
}

// ---- Faults ----

/// Causes each fault by a call in which nothing else is wrong.
void check_faults() {
    using bidi::Class;
    using bidi::Fault;
    const Row row{"rows.cpp", "", "each fault", 0, {}};
    const std::string_view hebrew = "\u05D0 a", broken = "a\xD7";
    const std::u32string_view above(U"a\x110000", 2);
    const std::vector<Class> classes = {Class::R, Class::R, Class::WS, Class::L}, bad_classes = {Class::R, static_cast<Class>(23), Class::WS, Class::L};
    const std::vector<bidi::Level> levels = {1, 1, 1, 2}, high = {1, 1, 127, 0}, odd = {1, 0, 1, 2};
    const std::vector<bidi::Bracket> one_bracket(1), bad_brackets = {{0}, {0x1F}, {0}, {0}};
    const unicode_bidi_paragraph whole = {0, 4, 1}, deep = {0, 4, 127};
    const bidi::Line<char> line(hebrew, classes, levels, whole, 0, 4);
    std::array<char, 3> small = {'x', 'x', 'x'};

    CHECK_FAULT(row, Fault::not_utf8, bidi::try_analyse(broken), bidi::Text(broken));
    bidi::Analyser analyser;
    CHECK_FAULT(row, Fault::not_utf8, bidi::try_analyse(analyser, broken), bidi::Text(analyser, broken));
    CHECK_FAULT(row, Fault::bad_base_level, bidi::try_analyse(analyser, hebrew, 126), bidi::Text(analyser, hebrew, 126));
    CHECK_FAULT(row, Fault::not_utf8, bidi::try_base_direction(broken), bidi::base_direction(broken));
    CHECK_FAULT(row, Fault::not_utf8, bidi::try_first_direction("\xFF"), bidi::first_direction("\xFF"));
    CHECK_FAULT(row, Fault::not_utf8, bidi::try_classes(broken), bidi::classes(broken));
    CHECK_FAULT(row, Fault::not_utf8, bidi::try_brackets(broken), bidi::brackets(broken));
    CHECK_FAULT(row, Fault::not_scalar, bidi::try_analyse(above), bidi::Text(above));
    CHECK_FAULT(row, Fault::not_scalar, bidi::try_class_of(0x110000), bidi::class_of(0x110000));
    CHECK_FAULT(row, Fault::not_scalar, bidi::try_bracket_of(0xD800), bidi::bracket_of(0xD800));
    CHECK_FAULT(row, Fault::not_scalar, bidi::try_mirrored(0xDFFF), bidi::mirrored(0xDFFF));
    for (const int level : {-1, 126, 254, 255, 256})
        CHECK_FAULT(row, Fault::bad_base_level, bidi::try_analyse(hebrew, level), bidi::Text(hebrew, level));
    CHECK_FAULT(row, Fault::bad_split, bidi::try_analyse(hebrew, 0, static_cast<bidi::Split>(3)),
                bidi::Text(hebrew, 0, static_cast<bidi::Split>(3)));
    CHECK_FAULT(row, Fault::bad_class, bidi::try_base_direction_of_classes(bad_classes), bidi::base_direction_of_classes(bad_classes));
    CHECK_FAULT(row, Fault::bad_class, bidi::try_analyse_classes(bad_classes), bidi::analyse_classes(bad_classes));
    CHECK_FAULT(row, Fault::unequal_lengths, bidi::try_analyse_classes(classes, one_bracket), bidi::analyse_classes(classes, one_bracket));
    CHECK_FAULT(row, Fault::bad_bracket, bidi::try_analyse_classes(classes, bad_brackets), bidi::analyse_classes(classes, bad_brackets));
    for (const int level : {-1, 126, 253, 254, 255, 256}) {
        CHECK_FAULT(row, Fault::bad_base_level, bidi::try_analyse_classes(classes, {}, level), bidi::analyse_classes(classes, {}, level));
        CHECK_FAULT(row, Fault::bad_base_level, bidi::try_paragraphs(hebrew, level), bidi::paragraphs(hebrew, level));
        CHECK_FAULT(row, Fault::bad_base_level, bidi::try_display(hebrew, {}, level), bidi::display(hebrew, {}, level));
    }
    const auto no_split = static_cast<bidi::Split>(3);
    CHECK_FAULT(row, Fault::bad_split, bidi::try_analyse_classes(classes, {}, 0, no_split), bidi::analyse_classes(classes, {}, 0, no_split));
    CHECK_FAULT(row, Fault::bad_split, bidi::try_paragraphs(hebrew, 0, no_split), bidi::paragraphs(hebrew, 0, no_split));
    CHECK_FAULT(row, Fault::bad_split, bidi::try_display(hebrew, {}, 0, no_split), bidi::display(hebrew, {}, 0, no_split));
    CHECK_FAULT(row, Fault::not_utf8, bidi::try_paragraphs(broken), bidi::paragraphs(broken));
    CHECK_FAULT(row, Fault::not_utf8, bidi::try_display(broken), bidi::display(broken));
    CHECK_FAULT(row, Fault::not_scalar, bidi::try_display(above), bidi::display(above));
    for (const unsigned number : {3u, 4u, 5u, 8u, 0xFFFFFFFFu}) {
        const bidi::DisplayOptions options = {static_cast<bidi::Moves>(number), true, bidi::Dropped::controls};
        CHECK_FAULT(row, Fault::bad_flags, bidi::try_display(hebrew, options), bidi::display(hebrew, options));
        CHECK_FAULT(row, Fault::bad_flags, line.try_display(options), line.display(options));
    }
    for (const unsigned number : {1u, 4u, 12u, 24u, 0xFFFFFFF8u}) {
        const bidi::DisplayOptions options = {bidi::Moves::clusters, false, static_cast<bidi::Dropped>(number)};
        CHECK_FAULT(row, Fault::bad_flags, bidi::try_display(hebrew, options), bidi::display(hebrew, options));
        CHECK_FAULT(row, Fault::bad_flags, line.try_display(options), line.display(options));
    }
    CHECK_FAULT(row, Fault::bad_level, bidi::try_reorder_visual(high), bidi::reorder_visual(high));
    CHECK_FAULT(row, Fault::no_room, line.try_displayed_into(small), line.displayed_into(small));
    row.check(small == std::array<char, 3>{'x', 'x', 'x'}, "a fault that wrote");

    const auto check_line_fault = [&row](Fault wanted, const auto &faulty) {
        CHECK_FAULT(row, wanted, faulty.try_displayed(), faulty.displayed());
        CHECK_FAULT(row, wanted, faulty.try_shown(), faulty.shown());
        CHECK_FAULT(row, wanted, faulty.try_display(), faulty.display());
    };
    const auto check_any_line_fault = [&](Fault wanted, const auto &faulty) {
        CHECK_FAULT(row, wanted, faulty.try_levels(), faulty.levels());
        CHECK_FAULT(row, wanted, faulty.try_runs(), faulty.runs());
        CHECK_FAULT(row, wanted, faulty.try_order(), faulty.order());
        check_line_fault(wanted, faulty);
    };
    using Line = bidi::Line<char>;
    const std::vector<Class> three(3);
    check_any_line_fault(Fault::unequal_lengths, Line(hebrew, three, levels, whole, 0, 3));
    check_any_line_fault(Fault::bad_line, Line(hebrew, classes, levels, whole, 3, 2));
    check_any_line_fault(Fault::bad_line, Line(hebrew, classes, levels, whole, 0, static_cast<std::size_t>(-1)));
    check_any_line_fault(Fault::bad_line, Line(hebrew, classes, levels, {2, 4, 1}, 0, 3));
    check_any_line_fault(Fault::bad_class, Line(hebrew, bad_classes, levels, whole, 0, 4));
    check_any_line_fault(Fault::bad_level, Line(hebrew, classes, high, whole, 0, 4));
    check_any_line_fault(Fault::bad_level, Line(hebrew, classes, levels, deep, 0, 4));
    check_line_fault(Fault::unequal_lengths, Line(hebrew.substr(1), classes, levels, whole, 0, 4));
    check_line_fault(Fault::cut_character, Line(hebrew, classes, levels, whole, 1, 4));
    check_line_fault(Fault::uneven_character, Line(hebrew, classes, odd, whole, 0, 4));
    check_line_fault(Fault::not_utf8, Line("a\xFF\xFF ", classes, levels, whole, 0, 4));
    check_line_fault(Fault::not_scalar, bidi::Line<char32_t>(above, {classes.data(), 2}, {levels.data(), 2}, {0, 2, 1}, 0, 2));
    const auto check_order_fault = [&](Fault wanted, const auto &c, const auto &l, const unicode_bidi_paragraph &paragraph,
                                       std::size_t start, std::size_t end, bidi::Moves moves = bidi::Moves::marks) {
        CHECK_FAULT(row, wanted, bidi::try_line_order(c, l, paragraph, start, end, moves),
                    bidi::line_order(c, l, paragraph, start, end, moves));
    };
    check_order_fault(Fault::unequal_lengths, three, levels, whole, 0, 3);
    check_order_fault(Fault::bad_line, classes, levels, whole, 3, 2);
    check_order_fault(Fault::bad_line, classes, levels, whole, 0, 5);
    check_order_fault(Fault::bad_class, bad_classes, levels, whole, 0, 4);
    check_order_fault(Fault::bad_level, classes, high, whole, 0, 4);
    check_order_fault(Fault::bad_level, classes, levels, deep, 0, 4);
    check_order_fault(Fault::bad_flags, classes, levels, whole, 0, 4, bidi::Moves::clusters);
    row.check(Line(hebrew, classes, levels, whole, 3, 2).text().empty() && Line(hebrew, classes, levels, whole, 0, 9).text().empty(),
              "the text of what is no line");
    const std::array bad_pair = {bidi::bracket_pair(U'(', U')', 0xD800)};
    const std::array bad_range = {bidi::class_range(U'a', U'b', static_cast<Class>(23))};
    CHECK_FAULT(row, Fault::not_scalar, bidi::try_analyse(bidi::Tables{{}, bad_pair}, hebrew), bidi::Text(bidi::Tables{{}, bad_pair}, hebrew));
    CHECK_FAULT(row, Fault::bad_class, bidi::try_base_direction(bidi::Tables{bad_range, {}}, hebrew),
                bidi::base_direction(bidi::Tables{bad_range, {}}, hebrew));
}

// ---- The rest ----

/// Empty texts, views without a pointer, moved objects, the lines of a paragraph, names and versions.
void check_objects() {
    const Row row{"rows.cpp", "", "objects", 0, {}};
    const auto none = value_of(row, bidi::try_analyse(std::u16string_view{}));
    row.check(none.paragraphs().empty() && none.classes().empty() && none.levels().empty(), "an empty text");
    const auto one = value_of(row, bidi::try_analyse(""sv, 1, bidi::Split::one_paragraph));
    row.check(one.paragraphs().size() == 1 && one.paragraphs()[0].is_rtl(), "an empty paragraph");
    row.check(value_of(row, one.paragraphs()[0].try_displayed()).empty(), "an empty line");
    row.check(value_of(row, bidi::try_base_direction(std::u32string_view{})) == bidi::Direction::mixed, "no direction");
    row.check(value_of(row, bidi::try_reorder_visual({})).empty() && value_of(row, bidi::try_classes(""sv)).empty(), "empty arrays");

    auto text = value_of(row, bidi::try_analyse("\u05D0\u05D1 a\r\nb"sv, std::nullopt, bidi::Split::cr_lf_together));
    const auto first = text.paragraphs()[0];
    row.check(text.paragraphs().size() == 2 && first.end() == 8 && first.content_end() == 6 && first.is_rtl(), "a paragraph");
    const auto moved = std::move(text);
    row.check(value_of(row, first.line(0, 6).try_displayed()) == "a \u05D1\u05D0", "a paragraph of a text that was moved");
    row.check(text.paragraphs().empty() && text.text().empty(), "a text that was moved from");
    const std::array<std::size_t, 2> ends = {4, first.content_end()};
    std::vector<std::string> lines;
    for (const auto line : first.lines(ends)) lines.push_back(value_of(row, line.try_displayed()));
    row.check(first.lines(ends).begin()->end() == 4 && std::distance(first.lines(ends).begin(), first.lines(ends).end()) == 2, "iterators");
    row.check(bidi::Lines<char>().empty() && bidi::Paragraphs<char16_t>().empty() && value_of(row, bidi::Line<char>().try_runs()).empty(),
              "ranges of nothing");
    row.check(lines == std::vector<std::string>{"\u05D1\u05D0", "a "}, "lines");
    row.check(moved.paragraphs()[1].text() == "b" && moved.paragraphs()[1].content_end() == 9, "the last paragraph");

    bidi::Analyser analyser;
    row.check(analyser.get()->memory == nullptr, "an analyser that has read no text");
    const auto kept = value_of(row, bidi::try_analyse(analyser, "\u2067(\u05D0)\u2069"sv));
    row.check(kept.levels()[3] == 1 && analyser.get()->memory != nullptr, "an analyser");
    bidi::Analyser other = std::move(analyser);
    row.check(analyser.get()->memory == nullptr && other.get()->memory != nullptr, "an analyser that was moved");
    const auto after = value_of(row, bidi::try_analyse(analyser, "b\u05D0"sv));
    row.check(after.levels()[1] == 1, "an analyser that was moved from");
    analyser = std::move(other);
    const auto last = value_of(row, bidi::try_analyse(analyser, "\u05D0b"sv));
    row.check(last.levels()[2] == 2, "an analyser that was assigned");
    analyser.clear();
    analyser.clear();
    row.check(analyser.get()->memory == nullptr, "an analyser that was cleared");

    const auto separator = value_of(row, bidi::try_analyse("\n"sv));
    row.check(separator.paragraphs().size() == 1 && separator.paragraphs()[0].content_end() == 0, "a separator by itself");
    const std::string many(1000, '\n');
    const auto lines_only = value_of(row, bidi::try_analyse(many));
    row.check(lines_only.paragraphs().size() == 1000 && lines_only.paragraphs()[999].start() == 999, "many paragraphs");
    row.check(value_of(row, bidi::try_first_direction("a\xFF"sv)) == bidi::Direction::ltr &&
                  value_of(row, bidi::try_first_direction(std::u32string_view(U"\u05D0\x110000", 2))) == bidi::Direction::rtl,
              "a fault behind the character that decides");

    const auto version = bidi::version(), unicode = bidi::unicode_version();
    row.check(version.major_number == UNICODE_BIDI_VERSION_MAJOR && version.minor_number == UNICODE_BIDI_VERSION_MINOR &&
                  version.patch_number == UNICODE_BIDI_VERSION_PATCH,
              "version");
    row.check(unicode.major_number == UNICODE_BIDI_UNICODE_VERSION_MAJOR && unicode.minor_number == UNICODE_BIDI_UNICODE_VERSION_MINOR &&
                  unicode.patch_number == UNICODE_BIDI_UNICODE_VERSION_PATCH,
              "version of Unicode");
    row.check(bidi::name(static_cast<bidi::Class>(23)) == "?"sv && bidi::name(static_cast<bidi::Fault>(-99)) == "UNKNOWN_FAULT"sv,
              "names of other numbers");
}

/// What is displayed, worked by hand from L1 to L4.
void check_displays() {
    const Row row{"rows.cpp", "", "displays", 0, {}};
    const auto is = [](const bidi::Array<std::size_t> &found, std::initializer_list<std::size_t> wanted) {
        return std::equal(found.begin(), found.end(), wanted.begin(), wanted.end());
    };
    using bidi::Dropped;
    using bidi::Moves;
    using bidi::nowhere;
    // L4: at level 1 the bracket is mirrored. L3: the point of a letter stays behind it. The mark (RLM) is not displayed.
    const auto text = u"a (\u05D0\u05B8\u200F\u05D1)"sv;
    const auto by_default = value_of(row, bidi::try_display(text, {}, 1));
    row.check(by_default.text == u"(\u05D1\u05D0\u05B8) a" && is(by_default.order, {7, 6, 3, 4, 2, 1, 0}) &&
                  is(by_default.places, {6, 5, 4, 2, 3, nowhere, 1, 0}),
              "by default");
    const std::array<bidi::Level, 8> levels = {2, 1, 1, 1, 1, 1, 1, 1};
    row.check(std::equal(levels.begin(), levels.end(), by_default.levels.begin(), by_default.levels.end()), "levels");
    const auto plain = value_of(row, bidi::try_display(text, {Moves::characters, false, Dropped::nothing}, 1));
    row.check(plain.text == u")\u05D1\u200F\u05B8\u05D0( a" && is(plain.order, {7, 6, 5, 4, 3, 2, 1, 0}), "without options");
    // The same for a line: the word alone, of whose line L1 changes no level.
    const auto analysed = value_of(row, bidi::try_analyse(text, 1));
    const auto line = value_of(row, analysed.paragraphs()[0].line(3, 7).try_display());
    row.check(line.text == u"\u05D1\u05D0\u05B8" && is(line.order, {3, 0, 1}) && is(line.places, {1, 2, nowhere, 0}), "a line");
    const auto empty = value_of(row, analysed.paragraphs()[0].line(3, 3).try_display());
    row.check(empty.text.empty() && empty.order.empty() && empty.places.empty(), "an empty line");
    const auto nothing = value_of(row, bidi::try_display(""sv));
    row.check(nothing.text.empty() && nothing.levels.empty() && nothing.places.empty(), "an empty text");

    // P3: digits decide nothing, so the fallback does.
    const auto level_of = [&](bidi::BaseLevel base) { return value_of(row, bidi::try_paragraphs("12"sv, base)).paragraphs[0].level; };
    row.check(level_of({}) == 0 && level_of(std::nullopt) == 0 && level_of(bidi::BaseLevel::auto_ltr()) == 0 &&
                  level_of(bidi::BaseLevel::auto_rtl()) == 1 && level_of(2) == 2 && level_of(std::optional<int>(3)) == 3,
              "base levels");
    row.check(value_of(row, bidi::try_display("1."sv, {}, bidi::BaseLevel::auto_rtl())).text == ".1", "a fallback");
    const std::u16string many(1000, u'\n');
    row.check(value_of(row, bidi::try_paragraphs(many)).paragraphs.size() == 1000, "many paragraphs");
    row.check(value_of(row, bidi::try_paragraphs(""sv)).paragraphs.empty() &&
                  value_of(row, bidi::try_paragraphs(""sv, 1, bidi::Split::one_paragraph)).paragraphs.size() == 1,
              "the paragraphs of an empty text");

    // L3: three marks follow their letter from right to left.
    const std::vector<bidi::Class> classes = {bidi::Class::R, bidi::Class::R, bidi::Class::NSM, bidi::Class::NSM, bidi::Class::R};
    const auto found = value_of(row, bidi::try_analyse_classes(classes));
    const auto marks = value_of(row, bidi::try_line_order(found.classes, found.levels, found.paragraphs[0], 0, 5, Moves::marks));
    row.check(is(marks.order, {4, 1, 2, 3, 0}) && is(marks.places, {4, 1, 2, 3, 0}), "the order of marks");
    const auto each = value_of(row, bidi::try_line_order(found.classes, found.levels, found.paragraphs[0], 1, 4));
    row.check(is(each.order, {2, 1, 0}) && is(each.places, {2, 1, 0}), "the order of characters");
    // N0c: a pair that encloses an L behind an L is L. By itself, the last of these characters has the direction of the
    // paragraph (N2).
    const std::vector<bidi::Class> enclosing = {bidi::Class::L, bidi::Class::ON, bidi::Class::L, bidi::Class::ON};
    const std::vector<bidi::Bracket> pair = {{0}, {U'(' | UNICODE_BIDI_OPENING}, {0}, {U'('}};
    const auto last_level = [&](bidi::Span<const bidi::Bracket> brackets) {
        return value_of(row, bidi::try_analyse_classes(enclosing, brackets, 1)).levels[3];
    };
    row.check(last_level(pair) == 2 && last_level({}) == 1, "brackets");
    const std::array<std::size_t, 4> order = {2, 0, 2, 9};
    row.check(is(value_of(row, bidi::try_places(order, 4)), {1, nowhere, 0, nowhere}), "places");
    row.check(is(value_of(row, bidi::try_places({}, 2)), {nowhere, nowhere}) && value_of(row, bidi::try_places(order, 0)).empty(),
              "places of nothing");
#ifdef UNICODE_BIDI_EXCEPTIONS
    check_throwing(row, std::nullopt, [&] { bidi::places(order, 4), bidi::line_order(classes, found.levels, {0, 5, 1}, 0, 5); });
#endif
}

#ifdef __cpp_lib_ranges
static_assert(std::ranges::forward_range<bidi::Paragraphs<char>> && std::ranges::forward_range<bidi::Lines<char>>);
static_assert(std::ranges::contiguous_range<bidi::Array<bidi::Run>> && std::ranges::contiguous_range<bidi::Span<const bidi::Level>>);
#endif

} // namespace

int main(int argc, char **argv) {
    if (argc != 3) fail("usage: rows FOLDER DISPLAYED");
    for (const char *file : {"sources.rows", "characters.rows", "texts.rows", "limits.rows", "lines.rows", "layouts.rows", "orders.rows", "directions.rows"})
        run_file(argv[1], file);
    for (const char *file : {"shown.rows", "clusters.rows", "carets.rows", "breaks.rows", "texts.rows"}) run_file(argv[2], file);
    check_faults();
    check_objects();
    check_displays();
#ifdef UNICODE_BIDI_EXCEPTIONS
    std::puts("ok: rows, faults and objects in C++, also in the forms that throw");
#else
    std::puts("ok: rows, faults and objects in C++, without exceptions");
#endif
}
