/// Makes each allocation of each call of unicode_bidi.hpp fail in turn. A call must then return `no_memory`, or what it
/// returns otherwise. Link with -Wl,--wrap=malloc,--wrap=realloc.
#include "rows.hpp"
#include "unicode_bidi.hpp"

#include <algorithm>

namespace bidi = unicode_bidi;

namespace {

long until_failure = -1; ///< how many allocations succeed before one fails; with -1 none fails
bool has_failed = false;

bool fails() {
    if (until_failure < 0 || until_failure-- > 0) return false;
    has_failed = true;
    return true;
}

} // namespace

extern "C" {
void *__real_malloc(std::size_t size);
void *__real_realloc(void *from, std::size_t size);
void *__wrap_malloc(std::size_t size);
void *__wrap_realloc(void *from, std::size_t size);

void *__wrap_malloc(std::size_t size) { return fails() ? nullptr : __real_malloc(size); }
void *__wrap_realloc(void *from, std::size_t size) { return fails() ? nullptr : __real_realloc(from, size); }
}

#ifdef UNICODE_BIDI_EXCEPTIONS
// The strings of the standard library. Without exceptions, a string that fails to allocate ends the program.
void *operator new(std::size_t size) {
    if (void *memory = fails() ? nullptr : __real_malloc(size)) return memory;
    throw std::bad_alloc();
}
void operator delete(void *memory) noexcept { std::free(memory); }
void operator delete(void *memory, std::size_t) noexcept { std::free(memory); }
#endif

namespace {

long failures = 0;

/// Makes a call with each of its allocations failing in turn. `same` compares a value with that of the first call.
template <class Call, class Same>
void sweep(const char *name, Call call, Same same) {
    const auto wanted = call();
    if (!wanted) fail(std::string(name) + ": " + bidi::name(wanted.error()));
    for (long count = 0;; count++) {
        until_failure = count;
        has_failed = false;
        const auto found = call();
        until_failure = -1;
        if (!has_failed) break;
        failures++;
        if (found ? !same(*wanted, *found) : found.error() != bidi::Fault::no_memory)
            fail(std::string(name) + ": allocation " + std::to_string(count) + " failed");
    }
}

template <class List>
bool is_same(const List &a, const List &b) {
    return std::equal(a.begin(), a.end(), b.begin(), b.end());
}

template <class Char>
bool is_same_text(const bidi::Text<Char> &a, const bidi::Text<Char> &b) {
    return is_same(a.classes(), b.classes()) && is_same(a.levels(), b.levels()) && a.paragraphs().size() == b.paragraphs().size();
}

/// Letters of two directions, brackets, embeddings and two paragraphs, more than the library keeps without memory.
std::u32string long_text() {
    std::u32string text;
    for (char32_t k = 0; k < 300; k++) text += k % 3 ? U"ab(" [k % 3] : 0x5D0 + k % 20;
    return text + U"\u202Bx)\u202C\u2067\u05D0 1\u2069\n" + std::u32string(80, U'a');
}

void sweep_all() {
    const std::u32string source = long_text();
    const auto text = bidi::try_analyse(source);
    if (!text) fail("the text");
    const auto line = text->paragraphs()[0];
    const auto equal = [](const auto &a, const auto &b) { return a == b; };
    sweep("analyse", [&] { return bidi::try_analyse(source); }, is_same_text<char32_t>);
    sweep("analyse with a new analyser", [&] {
        bidi::Analyser analyser;
        return bidi::try_analyse(analyser, source);
    }, is_same_text<char32_t>);
    bidi::Analyser analyser;
    sweep("analyse with one analyser", [&] { return bidi::try_analyse(analyser, source); }, is_same_text<char32_t>);
    const std::string lines_only(1000, '\n');
    sweep("analyse many paragraphs", [&] { return bidi::try_analyse(lines_only); }, is_same_text<char>);
    sweep("base_direction", [&] { return bidi::try_base_direction(source); }, equal);
    sweep("first_direction", [&] { return bidi::try_first_direction(source); }, equal);
    sweep("classes", [&] { return bidi::try_classes(source); }, is_same<bidi::Array<bidi::Class>>);
    sweep("levels", [&] { return line.try_levels(); }, is_same<bidi::Array<bidi::Level>>);
    sweep("order", [&] { return line.try_order(); }, is_same<bidi::Array<std::size_t>>);
    sweep("runs", [&] { return line.try_runs(); }, [](const auto &a, const auto &b) { return a.size() == b.size(); });
    sweep("displayed", [&] { return line.try_displayed(); }, equal);
    sweep("shown", [&] { return line.try_shown(); },
          [](const auto &a, const auto &b) { return a.displayed == b.displayed && is_same(a.order, b.order); });
    sweep("display a line", [&] { return line.try_display(); },
          [](const auto &a, const auto &b) { return a.text == b.text && is_same(a.order, b.order) && is_same(a.places, b.places); });
    sweep("display a text", [&] { return bidi::try_display(source); }, [](const auto &a, const auto &b) {
        return a.text == b.text && is_same(a.order, b.order) && is_same(a.places, b.places) && is_same(a.levels, b.levels);
    });
    sweep("paragraphs", [&] { return bidi::try_paragraphs(lines_only); }, [](const auto &a, const auto &b) {
        return is_same(a.classes, b.classes) && a.paragraphs.size() == b.paragraphs.size();
    });
    const auto brackets = bidi::try_brackets(source);
    if (!brackets) fail("the brackets");
    sweep("analyse classes", [&] { return bidi::try_analyse_classes(text->classes(), *brackets); },
          [](const auto &a, const auto &b) { return is_same(a.classes, b.classes) && is_same(a.levels, b.levels); });
    const unicode_bidi_paragraph whole = {0, source.size(), 1};
    sweep("line order", [&] { return bidi::try_line_order(text->classes(), text->levels(), whole, 0, source.size()); },
          [](const auto &a, const auto &b) { return is_same(a.order, b.order) && is_same(a.places, b.places); });
    const std::size_t order[] = {2, 0, 1};
    sweep("places", [&] { return bidi::try_places(order, 3); }, is_same<bidi::Array<std::size_t>>);
    sweep("reorder_visual", [&] { return bidi::try_reorder_visual(text->levels()); }, is_same<bidi::Array<std::size_t>>);
}

} // namespace

int main() {
    sweep_all();
    std::printf("ok: %ld failed allocations in C++\n", failures);
}
