/// Programs that must not compile, by the number CASE: each would keep a view of an object that ends with the call, or would
/// copy an analyser. The program of the number 0 must compile.
#include "unicode_bidi.hpp"

namespace bidi = unicode_bidi;

std::string temporary();
const std::u16string constant_temporary();

void program() {
#if CASE == 0
    const std::string kept;
    const auto text = bidi::try_analyse(kept);
    const auto direction = bidi::try_base_direction(temporary());
    const auto displayed = bidi::try_display(temporary());
    bidi::Analyser analyser;
    const auto again = bidi::try_analyse(analyser, kept);
    if (text && direction && displayed && again) static_cast<void>(text->paragraphs());
#elif CASE == 1
    static_cast<void>(bidi::try_analyse(temporary()));
#elif CASE == 2
    static_cast<void>(bidi::try_analyse(constant_temporary()));
#elif CASE == 3
    static_cast<void>(bidi::try_analyse(bidi::Tables{}, temporary()));
#elif CASE == 4
    const bidi::Text text(temporary());
#elif CASE == 5
    bidi::Analyser analyser;
    static_cast<void>(bidi::try_analyse(analyser, temporary()));
#elif CASE == 6
    bidi::Analyser analyser;
    const bidi::Analyser copy = analyser;
#elif CASE == 7
    for (const auto paragraph : bidi::Text("text").paragraphs()) static_cast<void>(paragraph);
#else
#error there is no such case
#endif
}
