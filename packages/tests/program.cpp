// A program that uses unicode_bidi.hpp, and has an allocator of its own with the name of the library's.
#include <unicode_bidi.hpp>

#include <iostream>

extern "C" void *rattle_alloc() { return nullptr; }

int main() {
    const unicode_bidi::Text text("car (מכונית) 12\nשלום");
    for (const auto paragraph : text.paragraphs())
        std::cout << paragraph.line(paragraph.start(), paragraph.content_end()).displayed() << '\n';
    try {
        const unicode_bidi::Text broken("\xFF");
    } catch (const unicode_bidi::Error &error) {
        std::cout << error.name() << '\n';
    }
    return rattle_alloc() == nullptr ? 0 : 1;
}
