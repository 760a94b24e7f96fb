/// Files of test vectors, as crates/bidi_vectors/data has them: README.md there says what a vector has. A vector is a
/// row here. A file or a row that can't be read ends the program.
#ifndef ROWS_HPP
#define ROWS_HPP

#include <cctype>
#include <cstdio>
#include <cstdlib>
#include <fstream>
#include <optional>
#include <string>
#include <utility>
#include <vector>

/// Ends the program with a message.
[[noreturn]] inline void fail(const std::string &what) {
    std::fprintf(stderr, "failed: %s\n", what.c_str());
    std::exit(1);
}

/// Removes white space from both ends.
inline std::string trimmed(const std::string &text) {
    const auto first = text.find_first_not_of(" \t\r\n");
    return first == std::string::npos ? "" : text.substr(first, text.find_last_not_of(" \t\r\n") - first + 1);
}

/// Splits a text. Empty parts are kept.
inline std::vector<std::string> split_at(const std::string &text, char separator) {
    std::vector<std::string> parts;
    std::size_t start = 0;
    for (std::size_t at; (at = text.find(separator, start)) != std::string::npos; start = at + 1)
        parts.push_back(text.substr(start, at - start));
    parts.push_back(text.substr(start));
    return parts;
}

/// Returns the words of a field: `2*a` is `a a`, and `2*a.b` is `a b a b`.
inline std::vector<std::string> words_of(const std::string &value) {
    std::vector<std::string> words;
    for (const std::string &word : split_at(value, ' ')) {
        if (word.empty()) continue;
        const std::size_t star = word.find('*');
        const bool is_repeated = star != 0 && star != std::string::npos && star + 1 < word.size() &&
                                 word.find_first_not_of("0123456789") == star;
        if (!is_repeated) {
            words.push_back(word);
            continue;
        }
        const std::string repeated = word.substr(star + 1);
        const auto parts = repeated == "." ? std::vector<std::string>{repeated} : split_at(repeated, '.');
        for (unsigned long times = std::stoul(word); times > 0; times--)
            words.insert(words.end(), parts.begin(), parts.end());
    }
    return words;
}

/// A row: its kind, its name, and its fields in their order.
struct Row {
    std::string file, kind, name;
    std::size_t line = 0;
    std::vector<std::pair<std::string, std::string>> fields;

    /// Returns a field, if the row has it.
    std::optional<std::string> get(const std::string &key) const {
        for (const auto &field : fields)
            if (field.first == key) return field.second;
        return std::nullopt;
    }

    /// Returns the words of a field, if the row has it.
    std::optional<std::vector<std::string>> words(const std::string &key) const {
        const auto value = get(key);
        if (!value) return std::nullopt;
        return words_of(*value);
    }

    /// Ends the program with a message that names the row.
    [[noreturn]] void fail(const std::string &what) const {
        ::fail(file + ":" + std::to_string(line) + ": " + name + ": " + what);
    }

    /// Ends the program if a condition does not hold.
    void check(bool holds, const std::string &what) const {
        if (!holds) fail(what);
    }
};

/// Returns the rows of a file.
inline std::vector<Row> read_rows(const std::string &folder, const std::string &file) {
    std::ifstream in(folder + "/" + file);
    if (!in) fail(folder + "/" + file + " can't be read");
    std::vector<Row> rows;
    std::string raw;
    for (std::size_t number = 1; std::getline(in, raw); number++) {
        const std::string line = trimmed(raw);
        if (line.empty() || line[0] == '#') continue;
        const std::size_t close = line.find("] "), colon = line.find(':');
        if (line[0] == '[' && close != std::string::npos)
            rows.push_back({file, line.substr(1, close - 1), trimmed(line.substr(close + 2)), number, {}});
        else if (colon != std::string::npos && !rows.empty())
            rows.back().fields.emplace_back(trimmed(line.substr(0, colon)), trimmed(line.substr(colon + 1)));
        else
            fail(file + ":" + std::to_string(number) + ": no line of a row");
    }
    return rows;
}

/// Returns the range of a word such as `2..5`.
inline std::pair<std::size_t, std::size_t> range_of(const Row &row, const std::string &word) {
    const std::size_t dots = word.find("..");
    row.check(dots != std::string::npos, word + " is no range");
    return {std::stoul(word), std::stoul(word.substr(dots + 2))};
}

/// Returns the character of a word such as `a` or `U+05D0`.
inline char32_t character_of(const Row &row, const std::string &word) {
    if (word.size() == 1) return static_cast<unsigned char>(word[0]);
    row.check(word.rfind("U+", 0) == 0, word + " is no character");
    return static_cast<char32_t>(std::stoul(word.substr(2), nullptr, 16));
}

#endif
