/// Displays texts of UTF-16 with unicode_bidi.hpp, as bench/languages asks: display TEXT..
/// Each paragraph of a text is one line.
#include "turns.h"
#include "unicode_bidi.hpp"

#include <cstdlib>
#include <fstream>
#include <iterator>
#include <string>
#include <vector>

namespace {

std::vector<std::u16string> texts;

/// Reads UTF-8 without a character above U+FFFF.
std::u16string read(const char *name) {
    std::ifstream file(name, std::ios::binary);
    const std::string bytes(std::istreambuf_iterator<char>(file), {});
    std::u16string text;
    for (std::size_t at = 0; at < bytes.size();) {
        const auto byte = [&](std::size_t ahead) { return static_cast<unsigned char>(bytes.at(at + ahead)); };
        const std::size_t length = byte(0) < 0x80 ? 1 : byte(0) < 0xE0 ? 2 : 3;
        unsigned value = byte(0) & (length == 1 ? 0x7Fu : length == 2 ? 0x1Fu : 0x0Fu);
        for (std::size_t ahead = 1; ahead < length; ahead++) value = value << 6 | (byte(ahead) & 0x3Fu);
        text.push_back(static_cast<char16_t>(value));
        at += length;
    }
    return text;
}

/// Calls `see` with each displayed line of a text.
template <class See>
void display_with(const std::u16string &text, See see) {
    const unicode_bidi::Text analysed(text, std::nullopt, unicode_bidi::Split::cr_lf_together);
    for (const auto paragraph : analysed.paragraphs()) see(paragraph.displayed());
}

bool display(std::size_t index) {
    std::size_t units = 0;
    display_with(texts[index], [&](const std::u16string &line) { units += line.size(); });
    return units == texts[index].size();
}

} // namespace

int main(int count, char **words) {
    for (int index = 1; index < count; index++) {
        texts.push_back(read(words[index]));
        display_with(texts.back(), [](const std::u16string &line) {
            for (const char16_t unit : line) std::printf("%x ", static_cast<unsigned>(unit));
        });
        std::printf("\n");
    }
    return answer_turns(texts.size(), display);
}
