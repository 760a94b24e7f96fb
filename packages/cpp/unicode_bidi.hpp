/// The Unicode Bidirectional Algorithm (UAX #9, revision 46) for C++17 and later, over the calls of unicode_bidi.h.
///
///     unicode_bidi::Text text("car (מכונית) 12");
///     for (const auto paragraph : text.paragraphs())
///         std::cout << paragraph.displayed() << '\n';
///
/// Units. A `Char` is `char` for a text in UTF-8, `char16_t` for UTF-16, `char32_t` for a list of characters (scalar
/// values), and `char8_t` for UTF-8 where the compiler has it. A unit is one `Char`. Indexes, lengths and ranges count
/// units from 0, and the end of a range is exclusive. In UTF-16 an unpaired surrogate is the character U+FFFD.
///
/// Lifetime. The library reads every text in place. A `Text`, and each `Paragraph` and `Line` that comes from it, only
/// views the text, so the text must outlive them and must not change. Paragraphs and lines also view the classes and
/// levels that the `Text` owns, so they must not outlive it. Moving a `Text` keeps them valid.
///
/// Faults. A call without `try_` throws `Error`. Its `try_` form does not throw, and returns a `Result`, which has the
/// value or the fault. If exceptions are off (-fno-exceptions), only the `try_` forms are declared. A fault leaves every
/// object and buffer unchanged. Out of memory is the fault `no_memory`. With -fno-exceptions, a `std::basic_string` can't
/// report that, and ends the program. `Line::try_displayed_into` makes no string.
///
/// Cost. Each function makes one call of unicode_bidi.h, and has its cost. What a function adds is said with it.
///
/// Displayed lines. `Line::displayed` returns the characters of a line in visual order (L2). `Line::display` and `display`
/// return what a device displays, by options: mirrored characters (L4), marks behind their letters (L3), and no controls.
///
/// Threads. Any number of threads may use the same const object at the same time.
#ifndef UNICODE_BIDI_HPP
#define UNICODE_BIDI_HPP

#include "unicode_bidi.h"

#include <algorithm>
#include <cstddef>
#include <cstdint>
#include <cstdlib>
#include <exception>
#include <iterator>
#include <memory>
#include <new>
#include <optional>
#include <string>
#include <string_view>
#include <type_traits>
#include <utility>
#include <variant>

#if defined(__cpp_exceptions) || defined(__EXCEPTIONS)
/// Is defined if the forms that throw are declared.
#define UNICODE_BIDI_EXCEPTIONS 1
#endif

namespace unicode_bidi {

// ---- Faults and results ----

/// What a call rejects. The numbers are those of unicode_bidi.h.
enum class Fault : int {
    no_memory = UNICODE_BIDI_NO_MEMORY,               ///< an allocation failed
    not_utf8 = UNICODE_BIDI_NOT_UTF8,                 ///< the text, or the given line of it, is not UTF-8
    not_scalar = UNICODE_BIDI_NOT_SCALAR,             ///< a character is above U+10FFFF or a surrogate
    bad_base_level = UNICODE_BIDI_BAD_BASE_LEVEL,     ///< the base level is above 125
    bad_split = UNICODE_BIDI_BAD_SPLIT,               ///< the split rule is none of `Split`
    bad_class = UNICODE_BIDI_BAD_CLASS,               ///< a class is none of `Class`
    bad_level = UNICODE_BIDI_BAD_LEVEL,               ///< a level is above 126
    unequal_lengths = UNICODE_BIDI_UNEQUAL_LENGTHS,   ///< lists with an entry for each unit do not have the same length
    bad_line = UNICODE_BIDI_BAD_LINE,                 ///< the line is no range of its paragraph
    cut_character = UNICODE_BIDI_CUT_CHARACTER,       ///< the line begins or ends inside a character
    uneven_character = UNICODE_BIDI_UNEVEN_CHARACTER, ///< the units of one character differ in class or in level
    no_room = UNICODE_BIDI_NO_ROOM,                   ///< the caller's buffer is too short
    bad_ranges = UNICODE_BIDI_BAD_RANGES,             ///< a range is reversed, or does not follow the previous one
    bad_bracket = UNICODE_BIDI_BAD_BRACKET,           ///< a bracket number is invalid
    bad_flags = UNICODE_BIDI_BAD_FLAGS                ///< the flags of a displayed line are invalid
};

/// Returns the name of a fault as unicode_bidi.h has it, without its prefix: "NOT_UTF8".
constexpr const char *name(Fault fault) noexcept {
    switch (fault) {
    case Fault::no_memory: return "NO_MEMORY";
    case Fault::not_utf8: return "NOT_UTF8";
    case Fault::not_scalar: return "NOT_SCALAR";
    case Fault::bad_base_level: return "BAD_BASE_LEVEL";
    case Fault::bad_split: return "BAD_SPLIT";
    case Fault::bad_class: return "BAD_CLASS";
    case Fault::bad_level: return "BAD_LEVEL";
    case Fault::unequal_lengths: return "UNEQUAL_LENGTHS";
    case Fault::bad_line: return "BAD_LINE";
    case Fault::cut_character: return "CUT_CHARACTER";
    case Fault::uneven_character: return "UNEVEN_CHARACTER";
    case Fault::no_room: return "NO_ROOM";
    case Fault::bad_ranges: return "BAD_RANGES";
    case Fault::bad_bracket: return "BAD_BRACKET";
    case Fault::bad_flags: return "BAD_FLAGS";
    }
    return "UNKNOWN_FAULT";
}

/// Returns the name of a fault and what it means: "NOT_UTF8: the text, or the given line of it, is not UTF-8".
constexpr const char *message(Fault fault) noexcept {
    switch (fault) {
    case Fault::no_memory: return "NO_MEMORY: an allocation failed";
    case Fault::not_utf8: return "NOT_UTF8: the text, or the given line of it, is not UTF-8";
    case Fault::not_scalar: return "NOT_SCALAR: a character is above U+10FFFF or a surrogate";
    case Fault::bad_base_level: return "BAD_BASE_LEVEL: the base level is above 125";
    case Fault::bad_split: return "BAD_SPLIT: there is no such split rule";
    case Fault::bad_class: return "BAD_CLASS: a class is above 22";
    case Fault::bad_level: return "BAD_LEVEL: a level is above 126";
    case Fault::unequal_lengths: return "UNEQUAL_LENGTHS: lists with an entry for each unit do not have the same length";
    case Fault::bad_line: return "BAD_LINE: the line is no range of its paragraph";
    case Fault::cut_character: return "CUT_CHARACTER: the line begins or ends inside a character";
    case Fault::uneven_character: return "UNEVEN_CHARACTER: the units of one character differ in class or in level";
    case Fault::no_room: return "NO_ROOM: the buffer is too short";
    case Fault::bad_ranges: return "BAD_RANGES: a range is reversed, or does not follow the previous one";
    case Fault::bad_bracket: return "BAD_BRACKET: a bracket number is invalid";
    case Fault::bad_flags: return "BAD_FLAGS: the flags of a displayed line are invalid";
    }
    return "UNKNOWN_FAULT: the library returned a code that this header does not have";
}

#ifdef UNICODE_BIDI_EXCEPTIONS
/// The exception of each call without `try_`.
class Error : public std::exception {
public:
    /// The exception of a fault.
    explicit Error(Fault fault) noexcept : fault_(fault) {}

    /// Returns the fault.
    Fault fault() const noexcept { return fault_; }

    /// Returns the number of the fault in unicode_bidi.h: -2 for NOT_UTF8.
    int code() const noexcept { return static_cast<int>(fault_); }

    /// Returns the name of the fault: "NOT_UTF8".
    const char *name() const noexcept { return unicode_bidi::name(fault_); }

    /// Returns the name of the fault and what it means.
    const char *what() const noexcept override { return message(fault_); }

private:
    Fault fault_;
};
#endif

/// The value of a call, or its fault.
template <class T>
class [[nodiscard]] Result {
public:
    /// Has a value.
    Result(T value) : state_(std::in_place_index<0>, std::move(value)) {}

    /// Has a fault.
    Result(Fault fault) noexcept : state_(std::in_place_index<1>, fault) {}

    /// Returns whether there is a value.
    bool has_value() const noexcept { return state_.index() == 0; }

    /// Returns whether there is a value.
    explicit operator bool() const noexcept { return has_value(); }

    /// Returns the value. There must be one. This and the next four do not check that.
    T &operator*() & noexcept { return *std::get_if<0>(&state_); }
    const T &operator*() const & noexcept { return *std::get_if<0>(&state_); }
    T &&operator*() && noexcept { return std::move(*std::get_if<0>(&state_)); }
    T *operator->() noexcept { return std::get_if<0>(&state_); }
    const T *operator->() const noexcept { return std::get_if<0>(&state_); }

    /// Returns the fault. There must be no value.
    Fault error() const noexcept { return *std::get_if<1>(&state_); }

#ifdef UNICODE_BIDI_EXCEPTIONS
    /// Returns the value, or throws the fault as an `Error`.
    T &value() & {
        check();
        return **this;
    }
    const T &value() const & {
        check();
        return **this;
    }
    T value() && {
        check();
        return *std::move(*this);
    }
#endif

private:
#ifdef UNICODE_BIDI_EXCEPTIONS
    void check() const {
        if (!has_value()) throw Error(error());
    }
#endif

    std::variant<T, Fault> state_;
};

// ---- Ranges ----

/// A view of elements that another object owns. It is what `std::span` is in C++20.
template <class T>
class Span {
public:
    /// Views nothing.
    constexpr Span() noexcept = default;

    /// Views `size` elements from `data` on.
    constexpr Span(T *data, std::size_t size) noexcept : data_(data), size_(size) {}

    /// Views an array.
    template <std::size_t N>
    constexpr Span(T (&array)[N]) noexcept : data_(array), size_(N) {}

    /// Views a container that keeps its elements side by side: a `std::vector`, a `std::array`, a `std::span`.
    template <class Container, class = std::enable_if_t<std::is_convertible_v<
                                   decltype(std::declval<Container &>().data()), T *>>>
    constexpr Span(Container &&container) noexcept : data_(container.data()), size_(container.size()) {}

    /// Returns a pointer to the first element. It may be null if there are none.
    constexpr T *data() const noexcept { return data_; }

    /// Returns the number of elements.
    constexpr std::size_t size() const noexcept { return size_; }

    /// Returns whether there are no elements.
    constexpr bool empty() const noexcept { return size_ == 0; }

    /// Returns an iterator at the first element.
    constexpr T *begin() const noexcept { return data_; }

    /// Returns the iterator behind the last element.
    constexpr T *end() const noexcept { return data_ + size_; }

    /// Returns the element at an index, which must be below `size()`.
    constexpr T &operator[](std::size_t index) const noexcept { return data_[index]; }

private:
    T *data_ = nullptr;
    std::size_t size_ = 0;
};

namespace detail {

struct Free {
    void operator()(void *memory) const noexcept { std::free(memory); }
};

template <class T>
class Buffer;

} // namespace detail

/// The elements that a call returned. It owns them, and can be moved but not copied.
template <class T>
class Array {
public:
    /// Has no elements.
    Array() noexcept = default;

    /// Takes the elements of another array, which then has none.
    Array(Array &&other) noexcept : data_(std::move(other.data_)), size_(std::exchange(other.size_, 0)) {}

    /// Frees its elements, and takes those of another array, which then has none.
    Array &operator=(Array &&other) noexcept {
        data_ = std::move(other.data_);
        size_ = std::exchange(other.size_, 0);
        return *this;
    }

    /// Returns a pointer to the first element. It may be null if there are none.
    const T *data() const noexcept { return data_.get(); }

    /// Returns the number of elements.
    std::size_t size() const noexcept { return size_; }

    /// Returns whether there are no elements.
    bool empty() const noexcept { return size_ == 0; }

    /// Returns an iterator at the first element.
    const T *begin() const noexcept { return data(); }

    /// Returns the iterator behind the last element.
    const T *end() const noexcept { return data() + size_; }

    /// Returns the element at an index, which must be below `size()`.
    const T &operator[](std::size_t index) const noexcept { return data()[index]; }

private:
    friend class detail::Buffer<T>;

    Array(std::unique_ptr<T, detail::Free> data, std::size_t size) noexcept : data_(std::move(data)), size_(size) {}

    std::unique_ptr<T, detail::Free> data_;
    std::size_t size_ = 0;
};

// ---- Levels, classes, directions ----

/// An embedding level: 0 to 126. A base level is at most 125.
using Level = std::uint8_t;

/// Returns whether what has this level is displayed from right to left.
constexpr bool is_rtl(Level level) noexcept { return level % 2 == 1; }

/// The base level: the level of every paragraph, or how each paragraph finds its own. A number and `std::nullopt` convert
/// to it.
class BaseLevel {
public:
    /// Each paragraph finds its own level (P2, P3). If none of its characters decides, the level is 0.
    constexpr BaseLevel(std::nullopt_t = std::nullopt) noexcept : number_(UNICODE_BIDI_AUTO) {}

    /// Every paragraph has this level (HL1), from 0 to 125. Any other number is BAD_BASE_LEVEL.
    constexpr BaseLevel(int level) noexcept
        : number_(static_cast<std::uint8_t>(level < 0 || level > no_level ? no_level : level)) {}

    /// Every paragraph has this level, or without one finds its own, as above.
    template <typename Number, typename = std::enable_if_t<std::is_integral_v<Number>>>
    constexpr BaseLevel(std::optional<Number> level) noexcept
        : number_(level ? BaseLevel(*level > no_level ? no_level : static_cast<int>(*level)).number_
                        : std::uint8_t{UNICODE_BIDI_AUTO}) {}

    /// Each paragraph finds its own level (P2, P3). If none of its characters decides, the level is 0.
    static constexpr BaseLevel auto_ltr() noexcept { return from_number(UNICODE_BIDI_AUTO_LTR); }

    /// Each paragraph finds its own level (P2, P3). If none of its characters decides, the level is 1.
    static constexpr BaseLevel auto_rtl() noexcept { return from_number(UNICODE_BIDI_AUTO_RTL); }

    /// Returns the number as unicode_bidi.h has it.
    constexpr std::uint8_t number() const noexcept { return number_; }

private:
    /// A number that is no level. A wrong level must not become UNICODE_BIDI_AUTO or its like.
    static constexpr int no_level = 126;

    static constexpr BaseLevel from_number(std::uint8_t number) noexcept {
        BaseLevel base;
        base.number_ = number;
        return base;
    }

    std::uint8_t number_;
};

/// A class (Bidi_Class). The numbers are those of unicode_bidi.h.
enum class Class : std::uint8_t {
    L = UNICODE_BIDI_L,
    R = UNICODE_BIDI_R,
    AL = UNICODE_BIDI_AL,
    EN = UNICODE_BIDI_EN,
    ES = UNICODE_BIDI_ES,
    ET = UNICODE_BIDI_ET,
    AN = UNICODE_BIDI_AN,
    CS = UNICODE_BIDI_CS,
    NSM = UNICODE_BIDI_NSM,
    BN = UNICODE_BIDI_BN,
    B = UNICODE_BIDI_B,
    S = UNICODE_BIDI_S,
    WS = UNICODE_BIDI_WS,
    ON = UNICODE_BIDI_ON,
    LRE = UNICODE_BIDI_LRE,
    LRO = UNICODE_BIDI_LRO,
    RLE = UNICODE_BIDI_RLE,
    RLO = UNICODE_BIDI_RLO,
    PDF = UNICODE_BIDI_PDF,
    LRI = UNICODE_BIDI_LRI,
    RLI = UNICODE_BIDI_RLI,
    FSI = UNICODE_BIDI_FSI,
    PDI = UNICODE_BIDI_PDI
};

/// Returns the name of a class: "AL". A number that is no class has the name "?".
constexpr const char *name(Class bidi_class) noexcept {
    constexpr const char *names[] = {"L", "R",  "AL", "EN",  "ES",  "ET",  "AN",  "CS",  "NSM", "BN",  "B",  "S",
                                     "WS", "ON", "LRE", "LRO", "RLE", "RLO", "PDF", "LRI", "RLI", "FSI", "PDI"};
    const auto number = static_cast<std::size_t>(bidi_class);
    return number < sizeof names / sizeof *names ? names[number] : "?";
}

/// A base direction.
enum class Direction : int {
    ltr = UNICODE_BIDI_LTR,    ///< left to right
    rtl = UNICODE_BIDI_RTL,    ///< right to left
    mixed = UNICODE_BIDI_MIXED ///< no character decides the direction
};

/// The paragraphs that are searched for a base direction.
enum class Search : std::uint8_t {
    first_paragraph = 0, ///< the first one
    all_paragraphs = 1   ///< all, until one has a direction
};

/// Where paragraphs end (P1).
enum class Split : std::uint8_t {
    one_paragraph = UNICODE_BIDI_ONE_PARAGRAPH,   ///< the text is one paragraph, even if it is empty
    each_separator = UNICODE_BIDI_EACH_SEPARATOR, ///< after each character of class B
    cr_lf_together = UNICODE_BIDI_CR_LF_TOGETHER  ///< the same, but not between CR and LF
};

/// The part of a paired bracket that a character is (BD14, BD15).
struct Bracket {
    /// The number as unicode_bidi.h has it: 0 if the character is no paired bracket.
    std::uint32_t number;

    /// Returns whether the character is a paired bracket.
    constexpr explicit operator bool() const noexcept { return number != 0; }

    /// Returns whether it is an opening bracket.
    constexpr bool opens() const noexcept { return (number & UNICODE_BIDI_OPENING) != 0; }

    /// Returns the character that the opening and the closing bracket of a pair have in common: the canonical
    /// equivalent of the opening bracket, or the opening bracket itself if it has none. Returns 0 if there is no bracket.
    constexpr char32_t normal_form() const noexcept { return number & ~std::uint32_t{UNICODE_BIDI_OPENING}; }
};

/// A visual run: a range of units that have one level after L1, and that level. The range is in logical order. A run of
/// an odd level is displayed from right to left.
struct Run : unicode_bidi_run {
    /// Returns the number of units.
    constexpr std::size_t size() const noexcept { return end - start; }

    /// Returns whether the run is displayed from right to left.
    constexpr bool is_rtl() const noexcept { return unicode_bidi::is_rtl(level); }
};

/// A version, as three numbers: 0.1.0 is 0, 1 and 0.
struct Version {
    int major_number; ///< the first number
    int minor_number; ///< the second number
    int patch_number; ///< the third number
};

/// A range of characters of one class, `last` included. Make one with `class_range`.
using ClassRange = unicode_bidi_class_range;

/// A pair of brackets (BD14, BD15). Make one with `bracket_pair`.
using BracketPair = unicode_bidi_bracket_pair;

/// Returns the range of the characters from `first` to `last`, both included, with their class.
constexpr ClassRange class_range(char32_t first, char32_t last, Class bidi_class) noexcept {
    return {first, last, static_cast<std::uint8_t>(bidi_class)};
}

/// Returns a pair of brackets. `normal_form` is the canonical equivalent of the opening bracket, or `opening` itself.
constexpr BracketPair bracket_pair(char32_t opening, char32_t closing, char32_t normal_form) noexcept {
    return {opening, closing, normal_form};
}

/// Returns a pair of brackets whose opening bracket has no canonical equivalent.
constexpr BracketPair bracket_pair(char32_t opening, char32_t closing) noexcept {
    return {opening, closing, opening};
}

/// The caller's own classes and brackets, in place of Unicode's data. They are only viewed. The ranges must ascend and not
/// overlap (BAD_RANGES). A character outside all of them has class L. If two pairs name a character, the first one counts.
struct Tables {
    Span<const ClassRange> ranges;    ///< the classes
    Span<const BracketPair> brackets; ///< the pairs of brackets
};

// ---- How this header makes the calls ----

namespace detail {

/// The library's calls for each type of unit.
template <class Char>
struct Encoding;

template <>
struct Encoding<char> {
    using Unit = std::uint8_t;
    static constexpr auto analyse = unicode_bidi_analyse_utf8;
    static constexpr auto analyse_with = unicode_bidi_analyse_with_utf8;
    static constexpr auto analyse_by_tables = unicode_bidi_analyse_by_tables_utf8;
    static constexpr auto base_direction = unicode_bidi_base_direction_utf8;
    static constexpr auto base_direction_by_tables = unicode_bidi_base_direction_by_tables_utf8;
    static constexpr auto first_direction = unicode_bidi_first_direction_utf8;
    static constexpr auto classes = unicode_bidi_classes_utf8;
    static constexpr auto brackets = unicode_bidi_brackets_utf8;
    static constexpr auto line_map = unicode_bidi_line_map_utf8;
    static constexpr auto reorder_line = unicode_bidi_reorder_line_utf8;
    static constexpr auto show_line = unicode_bidi_show_line_utf8;
    static constexpr auto display_line = unicode_bidi_display_line_utf8;
    static constexpr auto display_text = unicode_bidi_display_text_utf8;
    static constexpr auto paragraphs = unicode_bidi_paragraphs_utf8;
};

template <>
struct Encoding<char16_t> {
    using Unit = std::uint16_t;
    static constexpr auto analyse = unicode_bidi_analyse_utf16;
    static constexpr auto analyse_with = unicode_bidi_analyse_with_utf16;
    static constexpr auto analyse_by_tables = unicode_bidi_analyse_by_tables_utf16;
    static constexpr auto base_direction = unicode_bidi_base_direction_utf16;
    static constexpr auto base_direction_by_tables = unicode_bidi_base_direction_by_tables_utf16;
    static constexpr auto first_direction = unicode_bidi_first_direction_utf16;
    static constexpr auto classes = unicode_bidi_classes_utf16;
    static constexpr auto brackets = unicode_bidi_brackets_utf16;
    static constexpr auto line_map = unicode_bidi_line_map_utf16;
    static constexpr auto reorder_line = unicode_bidi_reorder_line_utf16;
    static constexpr auto show_line = unicode_bidi_show_line_utf16;
    static constexpr auto display_line = unicode_bidi_display_line_utf16;
    static constexpr auto display_text = unicode_bidi_display_text_utf16;
    static constexpr auto paragraphs = unicode_bidi_paragraphs_utf16;
};

template <>
struct Encoding<char32_t> {
    using Unit = std::uint32_t;
    static constexpr auto analyse = unicode_bidi_analyse_utf32;
    static constexpr auto analyse_with = unicode_bidi_analyse_with_utf32;
    static constexpr auto analyse_by_tables = unicode_bidi_analyse_by_tables_utf32;
    static constexpr auto base_direction = unicode_bidi_base_direction_utf32;
    static constexpr auto base_direction_by_tables = unicode_bidi_base_direction_by_tables_utf32;
    static constexpr auto first_direction = unicode_bidi_first_direction_utf32;
    static constexpr auto classes = unicode_bidi_classes_utf32;
    static constexpr auto brackets = unicode_bidi_brackets_utf32;
    static constexpr auto line_map = unicode_bidi_line_map_utf32;
    static constexpr auto reorder_line = unicode_bidi_reorder_line_utf32;
    static constexpr auto show_line = unicode_bidi_show_line_utf32;
    static constexpr auto display_line = unicode_bidi_display_line_utf32;
    static constexpr auto display_text = unicode_bidi_display_text_utf32;
    static constexpr auto paragraphs = unicode_bidi_paragraphs_utf32;
};

#ifdef __cpp_char8_t
template <>
struct Encoding<char8_t> : Encoding<char> {};
inline std::u8string_view view(std::u8string_view text) noexcept { return text; }
#endif

inline std::string_view view(std::string_view text) noexcept { return text; }
inline std::u16string_view view(std::u16string_view text) noexcept { return text; }
inline std::u32string_view view(std::u32string_view text) noexcept { return text; }

/// The unit of a text: of a view, a string or a literal.
template <class String>
using CharOf = typename decltype(view(std::declval<const String &>()))::value_type;

template <class String>
struct IsString : std::false_type {};
template <class Char, class Traits, class Allocator>
struct IsString<std::basic_string<Char, Traits, Allocator>> : std::true_type {};

/// Allows a forwarded argument if it is a string that ends with the call: not a reference, and not a view.
template <class String>
using IfTemporary = std::enable_if_t<IsString<std::remove_const_t<String>>::value>;

/// Returns a pointer that is not null. The library also takes null with length 0, but that is not proved.
template <class T>
T *not_null(T *pointer) noexcept {
    alignas(std::max_align_t) static std::remove_const_t<T> nothing{};
    return pointer ? pointer : &nothing;
}

/// Returns the units of a text. The library is compiled by itself, and reads them as numbers of the same size.
template <class Char>
const typename Encoding<Char>::Unit *units(std::basic_string_view<Char> text) noexcept {
    return reinterpret_cast<const typename Encoding<Char>::Unit *>(not_null(text.data()));
}

template <class Char>
typename Encoding<Char>::Unit *units(Char *out) noexcept {
    return reinterpret_cast<typename Encoding<Char>::Unit *>(not_null(out));
}

inline const std::uint8_t *numbers(Span<const Class> classes) noexcept {
    return reinterpret_cast<const std::uint8_t *>(not_null(classes.data()));
}

inline const std::uint32_t *numbers(Span<const Bracket> brackets) noexcept {
    return reinterpret_cast<const std::uint32_t *>(not_null(brackets.data()));
}

/// Returns the fault of a call that failed.
inline Fault fault_of(std::int64_t returned) noexcept { return static_cast<Fault>(returned); }

/// Returns what a call returned, as a value of a type, or as its fault.
template <class T>
Result<T> result_of(std::int64_t returned) noexcept {
    if (returned < 0) return fault_of(returned);
    return static_cast<T>(returned);
}

/// Memory for the elements that a call writes.
template <class T>
class Buffer {
    static_assert(std::is_trivially_copyable_v<T>, "the library writes the elements");

public:
    /// Has room for so many elements. If the allocation fails, `is_allocated` returns false.
    explicit Buffer(std::size_t room) noexcept : data_(allocated(room)), room_(room) {}

    bool is_allocated() const noexcept { return data_ != nullptr; }
    T *data() noexcept { return data_.get(); }
    std::size_t room() const noexcept { return room_; }

    /// Returns the first elements, and frees the room of the others.
    Array<T> take(std::size_t size) && noexcept {
        if (size < room_)
            if (void *shorter = std::realloc(data_.get(), bytes(size))) {
                static_cast<void>(data_.release());
                data_.reset(static_cast<T *>(shorter));
            }
        return Array<T>(std::move(data_), size);
    }

private:
    static std::size_t bytes(std::size_t room) noexcept { return room == 0 ? 1 : room * sizeof(T); }

    static T *allocated(std::size_t room) noexcept {
        if (room > static_cast<std::size_t>(-1) / sizeof(T)) return nullptr;
        return static_cast<T *>(std::malloc(bytes(room)));
    }

    std::unique_ptr<T, Free> data_;
    std::size_t room_;
};

inline std::uint8_t *numbers(Buffer<Class> &classes) noexcept {
    return reinterpret_cast<std::uint8_t *>(classes.data());
}

/// Returns the elements that `write(data, room)` wrote. It returns how many, or a fault.
template <class T, class Write>
Result<Array<T>> written(std::size_t room, Write write) noexcept {
    Buffer<T> buffer(room);
    if (!buffer.is_allocated()) return Fault::no_memory;
    const std::int64_t count = write(buffer.data(), room);
    if (count < 0) return fault_of(count);
    return std::move(buffer).take(static_cast<std::size_t>(count));
}

/// Returns the paragraphs that `write(data, room)` wrote. It returns how many, or a fault. If there are many, it is called
/// twice, because their number is not known before.
template <class Write>
Result<Array<unicode_bidi_paragraph>> written_paragraphs(std::size_t units, Split split, Write write) noexcept {
    std::size_t room = split == Split::one_paragraph ? 1 : std::min(units, units / 4 + 64);
    for (;;) {
        auto found = written<unicode_bidi_paragraph>(room, write);
        if (found || found.error() != Fault::no_room || room >= units) return found;
        room = units; // there are at most so many
    }
}

/// Gives a string so many units. Returns whether there was memory for them.
template <class Char>
bool resize(std::basic_string<Char> &string, std::size_t size) {
#ifdef UNICODE_BIDI_EXCEPTIONS
    try {
        string.resize(size);
    } catch (const std::bad_alloc &) {
        return false;
    }
#else
    string.resize(size);
#endif
    return true;
}

/// An iterator over a range that returns its elements by their indexes.
template <class Range>
class Iterator {
public:
    using value_type = typename Range::value_type;
    using difference_type = std::ptrdiff_t;
    using reference = value_type;
    using iterator_category = std::input_iterator_tag; // an element is returned, so there is no reference to it
    using iterator_concept = std::forward_iterator_tag;

    /// An element for the operator `->`.
    class pointer {
    public:
        explicit pointer(value_type element) noexcept : element_(element) {}
        const value_type *operator->() const noexcept { return &element_; }

    private:
        value_type element_;
    };

    Iterator() noexcept = default;
    Iterator(const Range &range, std::size_t index) noexcept : range_(range), index_(index) {}

    value_type operator*() const noexcept { return range_[index_]; }
    pointer operator->() const noexcept { return pointer(range_[index_]); }

    Iterator &operator++() noexcept {
        ++index_;
        return *this;
    }

    Iterator operator++(int) noexcept {
        Iterator before = *this;
        ++index_;
        return before;
    }

    friend bool operator==(const Iterator &a, const Iterator &b) noexcept { return a.index_ == b.index_; }
    friend bool operator!=(const Iterator &a, const Iterator &b) noexcept { return a.index_ != b.index_; }

private:
    Range range_;
    std::size_t index_ = 0;
};

} // namespace detail

// ---- What is displayed ----

/// What L2 moves as a whole. The characters of a cluster stay in the order of the text, at every level.
enum class Moves : std::uint32_t {
    characters = UNICODE_BIDI_MOVE_CHARACTERS, ///< each character (L2)
    marks = UNICODE_BIDI_MOVE_MARKS,           ///< a character with the marks (NSM) that follow it at its level (L3)
    clusters = UNICODE_BIDI_MOVE_CLUSTERS      ///< a grapheme cluster (UAX #29) of the displayed characters
};

/// Which characters are not displayed. The twelve direction controls are ALM, LRM, RLM, LRE, RLE, PDF, LRO, RLO, LRI, RLI,
/// FSI and PDI. Class BN has ZWJ and ZWNJ too, which emoji and Persian words need.
enum class Dropped : std::uint32_t {
    nothing = 0,                                            ///< all characters are displayed
    controls = UNICODE_BIDI_DROP_CONTROLS,                  ///< the twelve direction controls
    boundary_neutrals = UNICODE_BIDI_DROP_BOUNDARY_NEUTRALS ///< the same and the characters of class BN
};

/// How a line or a text is displayed.
struct DisplayOptions {
    Moves moves = Moves::clusters;       ///< what L2 moves as a whole
    bool mirror = true;                  ///< whether characters at odd levels are displayed as their partners (L4)
    Dropped dropped = Dropped::controls; ///< which characters are not displayed
};

/// In place of the visual index of a character that is not displayed.
inline constexpr std::size_t nowhere = UNICODE_BIDI_NOWHERE;

/// The two maps of a line or of a text. Both count characters, also in UTF-8 and UTF-16.
struct Maps {
    Array<std::size_t> order;  ///< the index of the character at each visual index
    Array<std::size_t> places; ///< the visual index of each character, or `nowhere` if it is not displayed
};

/// A displayed line: what `Line::display` returns. The maps count from the line's first character.
template <class Char>
struct DisplayedLine : Maps {
    std::basic_string<Char> text; ///< the displayed characters from left to right
};

/// A displayed text: what `display` returns. The maps count from the text's first character.
template <class Char>
struct DisplayedText : DisplayedLine<Char> {
    Array<Level> levels; ///< the level of each unit after L1
};

namespace detail {

/// Returns options as the library takes them. Numbers that are no options must not become other ones.
inline std::uint32_t flags_of(DisplayOptions options) noexcept {
    constexpr std::uint32_t no_flags = 3;
    const auto moves = static_cast<std::uint32_t>(options.moves), dropped = static_cast<std::uint32_t>(options.dropped);
    if (moves > UNICODE_BIDI_MOVE_CLUSTERS || dropped % UNICODE_BIDI_DROP_CONTROLS != 0) return no_flags;
    return moves + (options.mirror ? UNICODE_BIDI_MIRROR : 0) + dropped;
}

/// Writes what is displayed of so many units to `displayed`, by a call that gets the buffers. Returns its fault.
template <class Char, class Call>
std::optional<Fault> fault_of_display(DisplayedLine<Char> &displayed, std::size_t units, Call call) {
    constexpr std::size_t most = static_cast<std::size_t>(-1) / 2;
    Buffer<std::size_t> order(units), places(units);
    if (units > most || !order.is_allocated() || !places.is_allocated() || !resize(displayed.text, 2 * units))
        return Fault::no_memory;
    std::size_t shown = 0, characters = 0;
    const std::int64_t length = call(detail::units(displayed.text.data()), displayed.text.size(), order.data(), units,
                                     places.data(), units, &shown, &characters);
    if (length < 0) return fault_of(length);
    displayed.text.resize(static_cast<std::size_t>(length));
    displayed.order = std::move(order).take(shown);
    displayed.places = std::move(places).take(characters);
    return std::nullopt;
}

} // namespace detail

// ---- Lines ----

/// The parts of a line that `Line::shown` returns. `levels | runs` is both.
enum class Parts : unsigned { levels = 1, runs = 2, order = 4, displayed = 8, all = 15 };

/// Returns the parts of both.
constexpr Parts operator|(Parts a, Parts b) noexcept {
    return static_cast<Parts>(static_cast<unsigned>(a) | static_cast<unsigned>(b));
}

/// Returns whether `parts` has a part of `wanted`.
constexpr bool has(Parts parts, Parts wanted) noexcept {
    return (static_cast<unsigned>(parts) & static_cast<unsigned>(wanted)) != 0;
}

/// What `Line::shown` returns. The parts that were not wanted are empty.
template <class Char>
struct Shown {
    Array<Level> levels;                  ///< as of `Line::levels`
    Array<Run> runs;                      ///< as of `Line::runs`
    Array<std::size_t> order;             ///< as of `Line::order`
    std::basic_string<Char> displayed;    ///< as of `Line::displayed`
    std::size_t run_count = 0;            ///< the number of runs, even if they were not wanted
    std::size_t character_count = 0;      ///< the number of characters
};

/// A line of a paragraph: a range of its units, with their classes and levels. It owns nothing (see "Lifetime").
///
/// To make one checks nothing. Each call below checks the line, and has these faults first: UNEQUAL_LENGTHS of classes
/// and levels, BAD_LINE, BAD_CLASS and BAD_LEVEL in the line, BAD_LEVEL of the paragraph. Its cost is that of the line.
template <class Char>
class Line {
    using Encoding = detail::Encoding<Char>;

public:
    /// The empty line of an empty text.
    Line() noexcept = default;

    /// The line of a text from `start` up to `end`, by classes and levels (X1 to I2) of each unit of the text. They need
    /// not come from a `Text`. `paragraph` has the line in it, and its level is that of L1.
    Line(std::basic_string_view<Char> text, Span<const Class> classes, Span<const Level> levels,
         const unicode_bidi_paragraph &paragraph, std::size_t start, std::size_t end) noexcept
        : text_(text), classes_(classes), levels_(levels), paragraph_(paragraph), start_(start), end_(end) {}

    /// Returns the index of the first unit in the whole text.
    std::size_t start() const noexcept { return start_; }

    /// Returns the index behind the last unit in the whole text.
    std::size_t end() const noexcept { return end_; }

    /// Returns the number of units, or 0 if this is no line of the text.
    std::size_t size() const noexcept { return start_ <= end_ && end_ <= classes_.size() ? end_ - start_ : 0; }

    /// Returns the units in logical order, or an empty view if this is no line of the text.
    std::basic_string_view<Char> text() const noexcept { return part(start_, end_); }

    /// Returns the units of a run in logical order, or an empty view if this is no run of the text.
    std::basic_string_view<Char> text(const Run &run) const noexcept { return part(run.start, run.end); }

    /// Returns the level of the paragraph.
    Level paragraph_level() const noexcept { return paragraph_.level; }

    /// Returns the level of each unit of the line after L1.
    Result<Array<Level>> try_levels() const noexcept {
        return detail::written<Level>(size(), [this](Level *out, std::size_t room) {
            return unicode_bidi_line_levels(class_numbers(), classes_.size(), level_numbers(), levels_.size(), &paragraph_,
                                            start_, end_, out, room);
        });
    }

    /// Returns the visual runs of the line from left to right (L2).
    Result<Array<Run>> try_runs() const noexcept {
        return detail::written<Run>(size(), [this](Run *out, std::size_t room) {
            return unicode_bidi_line_runs(class_numbers(), classes_.size(), level_numbers(), levels_.size(), &paragraph_,
                                          start_, end_, out, room);
        });
    }

    /// Returns the visual order of the line's characters. Element i is the index of the character at visual position i,
    /// counted in characters from the line's first one.
    /// Faults: also UNEQUAL_LENGTHS of the text, CUT_CHARACTER (UTF-8, UTF-16), NOT_UTF8, NOT_SCALAR.
    Result<Array<std::size_t>> try_order() const noexcept {
        return detail::written<std::size_t>(size(), [this](std::size_t *out, std::size_t room) {
            return Encoding::line_map(detail::units(text_), text_.size(), class_numbers(), classes_.size(), level_numbers(),
                                      levels_.size(), &paragraph_, start_, end_, out, room);
        });
    }

    /// Returns the text of the line from left to right. It has `size()` units. Characters are not mirrored (L4), and marks
    /// are not moved (L3). In UTF-16 an unpaired surrogate is unchanged at an even level, and becomes U+FFFD at an odd one.
    /// Faults: also those of `try_order`, UNEVEN_CHARACTER (UTF-8, UTF-16).
    Result<std::basic_string<Char>> try_displayed() const {
        std::basic_string<Char> out;
        if (!detail::resize(out, size())) return Fault::no_memory;
        const Result<std::size_t> length = try_displayed_into(Span<Char>(out.data(), out.size()));
        if (!length) return length.error();
        return out;
    }

    /// Writes the text of the line from left to right to the front of `out`, and returns its length. `out` must not overlap
    /// the text, and needs room for `size()` units (NO_ROOM). After a fault `out` is unchanged.
    Result<std::size_t> try_displayed_into(Span<Char> out) const noexcept {
        return detail::result_of<std::size_t>(Encoding::reorder_line(
            detail::units(text_), text_.size(), class_numbers(), classes_.size(), level_numbers(), levels_.size(),
            &paragraph_, start_, end_, detail::units(out.data()), out.size()));
    }

    /// Returns several parts of the line by one call, which finds its levels and runs once.
    /// Faults: those of `try_displayed`, whatever the parts are.
    Result<Shown<Char>> try_shown(Parts parts = Parts::all) const {
        Shown<Char> shown;
        detail::Buffer<Level> levels(room(parts, Parts::levels));
        detail::Buffer<Run> runs(room(parts, Parts::runs));
        detail::Buffer<std::size_t> order(room(parts, Parts::order));
        if (!levels.is_allocated() || !runs.is_allocated() || !order.is_allocated() ||
            !detail::resize(shown.displayed, room(parts, Parts::displayed)))
            return Fault::no_memory;
        const std::int64_t count = Encoding::show_line(
            detail::units(text_), text_.size(), class_numbers(), classes_.size(), level_numbers(), levels_.size(),
            &paragraph_, start_, end_, levels.data(), levels.room(), runs.data(), runs.room(), order.data(), order.room(),
            detail::units(shown.displayed.data()), shown.displayed.size(), &shown.character_count);
        if (count < 0) return detail::fault_of(count);
        shown.run_count = static_cast<std::size_t>(count);
        shown.levels = std::move(levels).take(levels.room());
        shown.runs = std::move(runs).take(has(parts, Parts::runs) ? shown.run_count : 0);
        shown.order = std::move(order).take(has(parts, Parts::order) ? shown.character_count : 0);
        return shown;
    }

    /// Returns the line as a device displays it: its text from left to right (L2 to L4), and both maps. In UTF-16 an
    /// unpaired surrogate becomes U+FFFD. The call allocates a few hundred bytes for each character.
    /// Faults: also those of `try_displayed`, BAD_FLAGS for options that do not exist.
    Result<DisplayedLine<Char>> try_display(DisplayOptions options = {}) const {
        DisplayedLine<Char> displayed;
        const auto fault = detail::fault_of_display(displayed, size(), [&](auto... buffers) {
            return Encoding::display_line(detail::units(text_), text_.size(), class_numbers(), classes_.size(),
                                          level_numbers(), levels_.size(), &paragraph_, start_, end_,
                                          detail::flags_of(options), buffers...);
        });
        if (fault) return *fault;
        return displayed;
    }

#ifdef UNICODE_BIDI_EXCEPTIONS
    /// Like `try_levels`, but throws `Error`.
    Array<Level> levels() const { return try_levels().value(); }

    /// Like `try_runs`, but throws `Error`.
    Array<Run> runs() const { return try_runs().value(); }

    /// Like `try_order`, but throws `Error`.
    Array<std::size_t> order() const { return try_order().value(); }

    /// Like `try_displayed`, but throws `Error`.
    std::basic_string<Char> displayed() const { return try_displayed().value(); }

    /// Like `try_displayed_into`, but throws `Error`.
    std::size_t displayed_into(Span<Char> out) const { return try_displayed_into(out).value(); }

    /// Like `try_shown`, but throws `Error`.
    Shown<Char> shown(Parts parts = Parts::all) const { return try_shown(parts).value(); }

    /// Like `try_display`, but throws `Error`.
    DisplayedLine<Char> display(DisplayOptions options = {}) const { return try_display(options).value(); }
#endif

protected:
    /// Returns the same paragraph's line from `start` up to `end`.
    Line with_range(std::size_t start, std::size_t end) const noexcept {
        return Line(text_, classes_, levels_, paragraph_, start, end);
    }

    /// Returns the classes of the whole text.
    Span<const Class> all_classes() const noexcept { return classes_; }

private:
    const std::uint8_t *class_numbers() const noexcept { return detail::numbers(classes_); }
    const std::uint8_t *level_numbers() const noexcept { return detail::not_null(levels_.data()); }
    std::size_t room(Parts parts, Parts part) const noexcept { return has(parts, part) ? size() : 0; }

    std::basic_string_view<Char> part(std::size_t start, std::size_t end) const noexcept {
        return start <= end && end <= text_.size() ? std::basic_string_view<Char>(text_.data() + start, end - start)
                                                   : std::basic_string_view<Char>();
    }

    std::basic_string_view<Char> text_;
    Span<const Class> classes_;
    Span<const Level> levels_;
    unicode_bidi_paragraph paragraph_ = {0, 0, 0};
    std::size_t start_ = 0, end_ = 0;
};

template <class Char>
class Paragraph;

/// The lines of a paragraph, by their ends: a range of `Line`. It views the ends and owns nothing.
template <class Char>
class Lines {
public:
    using value_type = Line<Char>;
    using iterator = detail::Iterator<Lines>;
    using const_iterator = iterator;

    /// Has no lines.
    Lines() noexcept = default;

    /// Returns the number of lines.
    std::size_t size() const noexcept { return ends_.size(); }

    /// Returns whether there are no lines.
    bool empty() const noexcept { return ends_.empty(); }

    /// Returns an iterator at the first line.
    iterator begin() const noexcept { return iterator(*this, 0); }

    /// Returns the iterator behind the last line.
    iterator end() const noexcept { return iterator(*this, size()); }

    /// Returns the line at an index, which must be below `size()`.
    Line<Char> operator[](std::size_t index) const noexcept;

private:
    friend class Paragraph<Char>;

    Lines(const Paragraph<Char> &paragraph, Span<const std::size_t> ends) noexcept : paragraph_(paragraph), ends_(ends) {}

    Paragraph<Char> paragraph_;
    Span<const std::size_t> ends_;
};

/// A paragraph of a text, with a separator that ends it. It is also the line of all its units. It owns nothing (see
/// "Lifetime").
template <class Char>
class Paragraph : public Line<Char> {
public:
    /// The empty paragraph of an empty text.
    Paragraph() noexcept = default;

    /// A paragraph of a text, by classes and levels of each unit of the text, as of a `Line`.
    Paragraph(std::basic_string_view<Char> text, Span<const Class> classes, Span<const Level> levels,
              const unicode_bidi_paragraph &paragraph) noexcept
        : Line<Char>(text, classes, levels, paragraph, paragraph.start, paragraph.end) {}

    /// Returns the level of the paragraph (P2, P3, or the base level).
    Level level() const noexcept { return this->paragraph_level(); }

    /// Returns whether the paragraph is from right to left.
    bool is_rtl() const noexcept { return unicode_bidi::is_rtl(level()); }

    /// Returns the index behind the last unit that is no separator (class B), at least `start()`.
    std::size_t content_end() const noexcept {
        std::size_t last = this->start() + this->size();
        while (last > this->start() && this->all_classes()[last - 1] == Class::B) last--;
        return last;
    }

    /// Returns the line from `start` up to `end`, indexes in the whole text. It must be in the paragraph, and cut no
    /// character: the calls of the line return BAD_LINE or CUT_CHARACTER otherwise.
    Line<Char> line(std::size_t start, std::size_t end) const noexcept { return this->with_range(start, end); }

    /// Returns the lines that end at these indexes in the whole text. The first one begins where the paragraph begins, each
    /// other one where the one before it ends. The range views `ends`.
    Lines<Char> lines(Span<const std::size_t> ends) const noexcept { return Lines<Char>(*this, ends); }
};

template <class Char>
Line<Char> Lines<Char>::operator[](std::size_t index) const noexcept {
    return paragraph_.line(index == 0 ? paragraph_.start() : ends_[index - 1], ends_[index]);
}

/// The paragraphs of a text: a range of `Paragraph`. It owns nothing (see "Lifetime").
template <class Char>
class Paragraphs {
public:
    using value_type = Paragraph<Char>;
    using iterator = detail::Iterator<Paragraphs>;
    using const_iterator = iterator;

    /// Has no paragraphs.
    Paragraphs() noexcept = default;

    /// The paragraphs of a text, by classes and levels of each unit of the text.
    Paragraphs(std::basic_string_view<Char> text, Span<const Class> classes, Span<const Level> levels,
               Span<const unicode_bidi_paragraph> paragraphs) noexcept
        : text_(text), classes_(classes), levels_(levels), paragraphs_(paragraphs) {}

    /// Returns the number of paragraphs.
    std::size_t size() const noexcept { return paragraphs_.size(); }

    /// Returns whether there are no paragraphs.
    bool empty() const noexcept { return paragraphs_.empty(); }

    /// Returns an iterator at the first paragraph.
    iterator begin() const noexcept { return iterator(*this, 0); }

    /// Returns the iterator behind the last paragraph.
    iterator end() const noexcept { return iterator(*this, size()); }

    /// Returns the paragraph at an index, which must be below `size()`.
    Paragraph<Char> operator[](std::size_t index) const noexcept {
        return Paragraph<Char>(text_, classes_, levels_, paragraphs_[index]);
    }

private:
    std::basic_string_view<Char> text_;
    Span<const Class> classes_;
    Span<const Level> levels_;
    Span<const unicode_bidi_paragraph> paragraphs_;
};

// ---- The whole text ----

/// Keeps the memory of an analysis for the next one. Without it, each analysis allocates the lists that it needs, and frees
/// them. It keeps no text and no result: what an analysis finds does not depend on the texts before it. It frees its memory
/// when it ends. It can be moved but not copied. Threads must not use one at the same time.
class Analyser {
public:
    /// Keeps nothing yet. Does not allocate.
    Analyser() noexcept = default;

    /// Takes the memory of another analyser, which then keeps nothing and can be used again.
    Analyser(Analyser &&other) noexcept : analyser_(std::exchange(other.analyser_, {})) {}

    /// Frees its memory, and takes that of another analyser, as above.
    Analyser &operator=(Analyser &&other) noexcept {
        if (this != &other) {
            clear();
            analyser_ = std::exchange(other.analyser_, {});
        }
        return *this;
    }

    ~Analyser() { clear(); }

    /// Frees its memory. It can be used again.
    void clear() noexcept { unicode_bidi_free(&analyser_); }

    /// Returns the analyser that the calls in C take.
    unicode_bidi_analyser *get() noexcept { return &analyser_; }

private:
    unicode_bidi_analyser analyser_ = {};
};

/// The analysis of a text: its classes, levels and paragraphs. It owns these, and views the text (see "Lifetime"). It can
/// be moved but not copied.
///
/// Faults: NOT_UTF8, NOT_SCALAR (by the encoding), BAD_BASE_LEVEL, BAD_SPLIT. With tables before those: NOT_SCALAR in a
/// range, NOT_SCALAR in a pair, BAD_CLASS, BAD_RANGES.
/// Cost: the text, once. A text of more than 64 paragraphs and more than one in four units is analysed twice, because the
/// number of paragraphs is not known before. The `Text` keeps two bytes a unit, and one `unicode_bidi_paragraph` a
/// paragraph.
template <class Char>
class Text {
public:
#ifdef UNICODE_BIDI_EXCEPTIONS
    /// Analyses a text by Unicode's own data. Without a base level, each paragraph finds its own (P2, P3). Throws `Error`.
    explicit Text(std::basic_string_view<Char> text, BaseLevel base = std::nullopt,
                  Split split = Split::each_separator)
        : Text(try_new(text, base, split).value()) {}

    /// Does the same in the memory of an analyser. Throws `Error`.
    Text(Analyser &analyser, std::basic_string_view<Char> text, BaseLevel base = std::nullopt,
         Split split = Split::each_separator)
        : Text(try_new(analyser, text, base, split).value()) {}

    /// Analyses a text by the caller's tables. Throws `Error`.
    Text(const Tables &tables, std::basic_string_view<Char> text, BaseLevel base = std::nullopt,
         Split split = Split::each_separator)
        : Text(try_new(tables, text, base, split).value()) {}

    /// A string that ends with the call can't be viewed.
    template <class String, class... Rest, class = detail::IfTemporary<String>>
    explicit Text(String &&, Rest...) = delete;
    template <class String, class... Rest, class = detail::IfTemporary<String>>
    Text(Analyser &, String &&, Rest...) = delete;
    template <class String, class... Rest, class = detail::IfTemporary<String>>
    Text(const Tables &, String &&, Rest...) = delete;
#endif

    /// Takes the analysis of another object, which is then that of an empty text without paragraphs.
    Text(Text &&other) noexcept
        : text_(std::exchange(other.text_, {})), classes_(std::move(other.classes_)), levels_(std::move(other.levels_)),
          paragraphs_(std::move(other.paragraphs_)) {}

    /// Frees its analysis, and takes that of another object, as above.
    Text &operator=(Text &&other) noexcept {
        text_ = std::exchange(other.text_, {});
        classes_ = std::move(other.classes_);
        levels_ = std::move(other.levels_);
        paragraphs_ = std::move(other.paragraphs_);
        return *this;
    }

    /// Analyses a text by Unicode's own data. Without a base level, each paragraph finds its own (P2, P3).
    /// `try_analyse` does the same, and finds the type of unit.
    static Result<Text> try_new(std::basic_string_view<Char> text, BaseLevel base = std::nullopt,
                                Split split = Split::each_separator) noexcept {
        return try_write(text, split, [&](auto... buffers) {
            return Encoding::analyse(detail::units(text), text.size(), base.number(),
                                     static_cast<std::uint8_t>(split), buffers...);
        });
    }

    /// Does the same in the memory of an analyser.
    static Result<Text> try_new(Analyser &analyser, std::basic_string_view<Char> text, BaseLevel base = std::nullopt,
                                Split split = Split::each_separator) noexcept {
        return try_write(text, split, [&](auto... buffers) {
            return Encoding::analyse_with(analyser.get(), detail::units(text), text.size(), base.number(),
                                          static_cast<std::uint8_t>(split), buffers...);
        });
    }

    /// Analyses a text by the caller's tables. Without a base level, each paragraph finds its own (P2, P3).
    static Result<Text> try_new(const Tables &tables, std::basic_string_view<Char> text,
                                BaseLevel base = std::nullopt,
                                Split split = Split::each_separator) noexcept {
        return try_write(text, split, [&](auto... buffers) {
            return Encoding::analyse_by_tables(
                detail::not_null(tables.ranges.data()), tables.ranges.size(), detail::not_null(tables.brackets.data()),
                tables.brackets.size(), detail::units(text), text.size(), base.number(),
                static_cast<std::uint8_t>(split), buffers...);
        });
    }

    /// Returns the text, which this object only views.
    std::basic_string_view<Char> text() const noexcept { return text_; }

    /// Returns the class of each unit. If a character decides the direction of an FSI, the FSI has class RLI or LRI (X5c).
    Span<const Class> classes() const & noexcept { return Span<const Class>(classes_); }

    /// Returns the level of each unit (X1 to I2, before L1).
    Span<const Level> levels() const & noexcept { return Span<const Level>(levels_); }

    /// Returns the paragraphs.
    Paragraphs<Char> paragraphs() const & noexcept {
        return Paragraphs<Char>(text_, classes(), levels(), Span<const unicode_bidi_paragraph>(paragraphs_));
    }

    /// What an object owns can't be viewed if the object ends with the call.
    Span<const Class> classes() const && = delete;
    Span<const Level> levels() const && = delete;
    Paragraphs<Char> paragraphs() const && = delete;

private:
    using Encoding = detail::Encoding<Char>;

    Text(std::basic_string_view<Char> text, Array<Class> classes, Array<Level> levels,
         Array<unicode_bidi_paragraph> paragraphs) noexcept
        : text_(text), classes_(std::move(classes)), levels_(std::move(levels)), paragraphs_(std::move(paragraphs)) {}

    /// Returns the analysis that `analyse` writes. It takes the three buffers with their lengths.
    template <class Analyse>
    static Result<Text> try_write(std::basic_string_view<Char> text, Split split, Analyse analyse) noexcept {
        const std::size_t n = text.size();
        detail::Buffer<Class> classes(n);
        detail::Buffer<Level> levels(n);
        if (!classes.is_allocated() || !levels.is_allocated()) return Fault::no_memory;
        auto paragraphs = detail::written_paragraphs(n, split, [&](unicode_bidi_paragraph *out, std::size_t room) {
            return analyse(detail::numbers(classes), n, levels.data(), n, out, room);
        });
        if (!paragraphs) return paragraphs.error();
        return Text(text, std::move(classes).take(n), std::move(levels).take(n), *std::move(paragraphs));
    }

    std::basic_string_view<Char> text_;
    Array<Class> classes_;
    Array<Level> levels_;
    Array<unicode_bidi_paragraph> paragraphs_;
};

#ifdef UNICODE_BIDI_EXCEPTIONS
template <class String, class... Rest>
explicit Text(const String &, Rest...) -> Text<detail::CharOf<String>>;
template <class String, class... Rest>
Text(Analyser &, const String &, Rest...) -> Text<detail::CharOf<String>>;
template <class String, class... Rest>
Text(const Tables &, const String &, Rest...) -> Text<detail::CharOf<String>>;
#endif

/// Returns the analysis of a text by Unicode's own data, as `Text::try_new` does. `text` is a view, a string that stays, or
/// a literal.
template <class String>
Result<Text<detail::CharOf<String>>> try_analyse(const String &text, BaseLevel base = std::nullopt,
                                                 Split split = Split::each_separator) noexcept {
    return Text<detail::CharOf<String>>::try_new(detail::view(text), base, split);
}

/// Does the same in the memory of an analyser.
template <class String>
Result<Text<detail::CharOf<String>>> try_analyse(Analyser &analyser, const String &text, BaseLevel base = std::nullopt,
                                                 Split split = Split::each_separator) noexcept {
    return Text<detail::CharOf<String>>::try_new(analyser, detail::view(text), base, split);
}

/// Returns the analysis of a text by the caller's tables, as `Text::try_new` does.
template <class String>
Result<Text<detail::CharOf<String>>> try_analyse(const Tables &tables, const String &text,
                                                 BaseLevel base = std::nullopt,
                                                 Split split = Split::each_separator) noexcept {
    return Text<detail::CharOf<String>>::try_new(tables, detail::view(text), base, split);
}

/// A string that ends with the call can't be viewed.
template <class String, class... Rest, class = detail::IfTemporary<String>>
void try_analyse(String &&, Rest...) = delete;
template <class String, class... Rest, class = detail::IfTemporary<String>>
void try_analyse(Analyser &, String &&, Rest...) = delete;
template <class String, class... Rest, class = detail::IfTemporary<String>>
void try_analyse(const Tables &, String &&, Rest...) = delete;

/// Analyses a text and displays it by one call, each paragraph as one line (P1 to L4). The paragraphs follow one another.
/// The separators (B) at the end of a paragraph stay behind its displayed content.
/// Faults: NOT_UTF8, NOT_SCALAR (by the encoding), BAD_BASE_LEVEL, BAD_SPLIT, BAD_FLAGS for options that do not exist.
template <class String>
Result<DisplayedText<detail::CharOf<String>>> try_display(const String &text, DisplayOptions options = {},
                                                          BaseLevel base = std::nullopt,
                                                          Split split = Split::each_separator) {
    const auto view = detail::view(text);
    const std::size_t n = view.size();
    DisplayedText<detail::CharOf<String>> displayed;
    detail::Buffer<Level> levels(n);
    if (!levels.is_allocated()) return Fault::no_memory;
    const auto fault = detail::fault_of_display(displayed, n, [&](auto... buffers) {
        return detail::Encoding<detail::CharOf<String>>::display_text(
            detail::units(view), n, base.number(), static_cast<std::uint8_t>(split), detail::flags_of(options),
            levels.data(), n, buffers...);
    });
    if (fault) return *fault;
    displayed.levels = std::move(levels).take(n);
    return displayed;
}

/// The paragraphs of a text without its levels: what `paragraphs` returns.
struct FoundParagraphs {
    Array<Class> classes;                     ///< the class of each unit, as of `Text::classes`
    Array<unicode_bidi_paragraph> paragraphs; ///< the paragraphs, each with its level
};

/// Returns the paragraphs of a text (P1) with their levels (P2, P3), and the class of each unit. It takes less time than
/// an analysis. Like that, it makes two calls for a text of many paragraphs.
/// Faults: NOT_UTF8, NOT_SCALAR (by the encoding), BAD_BASE_LEVEL, BAD_SPLIT.
template <class String>
Result<FoundParagraphs> try_paragraphs(const String &text, BaseLevel base = std::nullopt,
                                       Split split = Split::each_separator) noexcept {
    const auto view = detail::view(text);
    const std::size_t n = view.size();
    detail::Buffer<Class> classes(n);
    if (!classes.is_allocated()) return Fault::no_memory;
    auto paragraphs = detail::written_paragraphs(n, split, [&](unicode_bidi_paragraph *out, std::size_t room) {
        return detail::Encoding<detail::CharOf<String>>::paragraphs(detail::units(view), n, base.number(),
                                                                    static_cast<std::uint8_t>(split),
                                                                    detail::numbers(classes), n, out, room);
    });
    if (!paragraphs) return paragraphs.error();
    return FoundParagraphs{std::move(classes).take(n), *std::move(paragraphs)};
}

/// Returns the base direction of the first paragraph, or of the first paragraph that has one (P2, P3).
/// Faults: NOT_UTF8, NOT_SCALAR (by the encoding). UTF-8 and UTF-32 are checked as a whole. UTF-32 allocates a copy.
template <class String>
Result<Direction> try_base_direction(const String &text, Search search = Search::first_paragraph) noexcept {
    const auto view = detail::view(text);
    return detail::result_of<Direction>(detail::Encoding<detail::CharOf<String>>::base_direction(
        detail::units(view), view.size(), static_cast<std::uint8_t>(search)));
}

/// Returns the same by the caller's tables. Faults of the tables come first, as in `Text`.
template <class String>
Result<Direction> try_base_direction(const Tables &tables, const String &text,
                                     Search search = Search::first_paragraph) noexcept {
    const auto view = detail::view(text);
    return detail::result_of<Direction>(detail::Encoding<detail::CharOf<String>>::base_direction_by_tables(
        detail::not_null(tables.ranges.data()), tables.ranges.size(), detail::not_null(tables.brackets.data()),
        tables.brackets.size(), detail::units(view), view.size(), static_cast<std::uint8_t>(search)));
}

/// Returns the base direction by the first character that decides it. Reads no further, and with
/// `Search::first_paragraph` no further than the first paragraph. Does not allocate.
/// Faults: NOT_UTF8, NOT_SCALAR (by the encoding), in the characters that are read.
template <class String>
Result<Direction> try_first_direction(const String &text, Search search = Search::first_paragraph) noexcept {
    const auto view = detail::view(text);
    return detail::result_of<Direction>(detail::Encoding<detail::CharOf<String>>::first_direction(
        detail::units(view), view.size(), static_cast<std::uint8_t>(search)));
}

/// Returns the base direction of a list of classes, one a character. Does not allocate.
/// Faults: BAD_CLASS.
inline Result<Direction> try_base_direction_of_classes(Span<const Class> classes,
                                                       Search search = Search::first_paragraph) noexcept {
    return detail::result_of<Direction>(unicode_bidi_base_direction_of_classes(
        detail::numbers(classes), classes.size(), static_cast<std::uint8_t>(search)));
}

/// Returns the class of each unit by Unicode's own data, without X5c.
/// Faults: NOT_UTF8, NOT_SCALAR (by the encoding).
template <class String>
Result<Array<Class>> try_classes(const String &text) noexcept {
    const auto view = detail::view(text);
    return detail::written<Class>(view.size(), [view](Class *out, std::size_t room) {
        return detail::Encoding<detail::CharOf<String>>::classes(detail::units(view), view.size(),
                                                                 reinterpret_cast<std::uint8_t *>(out), room);
    });
}

/// Returns the bracket that each unit belongs to, by Unicode's own data.
/// Faults: NOT_UTF8, NOT_SCALAR (by the encoding).
template <class String>
Result<Array<Bracket>> try_brackets(const String &text) noexcept {
    const auto view = detail::view(text);
    return detail::written<Bracket>(view.size(), [view](Bracket *out, std::size_t room) {
        return detail::Encoding<detail::CharOf<String>>::brackets(detail::units(view), view.size(),
                                                                  reinterpret_cast<std::uint32_t *>(out), room);
    });
}

// ---- Of classes, without a text ----

/// The analysis of a list of classes: what `analyse_classes` returns.
struct AnalysedClasses {
    Array<Class> classes;                     ///< the class of each character, as of `Text::classes` (X5c)
    Array<Level> levels;                      ///< the level of each character (X1 to I2, before L1)
    Array<unicode_bidi_paragraph> paragraphs; ///< the paragraphs, in indexes of characters, each with its level
};

/// Returns the levels of characters by their classes and brackets alone, without a text. `brackets` has one bracket for
/// each character, as `brackets` of a `std::u32string_view` returns it, or is empty: then no character is a bracket. A
/// bracket counts only where the class is ON. A paragraph ends after each class B, unless the list is one paragraph.
/// Faults: UNEQUAL_LENGTHS of classes and brackets, BAD_CLASS, BAD_BRACKET, BAD_BASE_LEVEL, BAD_SPLIT.
inline Result<AnalysedClasses> try_analyse_classes(Span<const Class> classes, Span<const Bracket> brackets = {},
                                                   BaseLevel base = std::nullopt,
                                                   Split split = Split::each_separator) noexcept {
    const std::size_t n = classes.size();
    detail::Buffer<Class> stored(n);
    detail::Buffer<Level> levels(n);
    if (!stored.is_allocated() || !levels.is_allocated()) return Fault::no_memory;
    auto paragraphs = detail::written_paragraphs(n, split, [&](unicode_bidi_paragraph *out, std::size_t room) {
        return unicode_bidi_analyse_classes(detail::numbers(classes), n, detail::numbers(brackets), brackets.size(),
                                            base.number(), static_cast<std::uint8_t>(split), detail::numbers(stored), n,
                                            levels.data(), n, out, room);
    });
    if (!paragraphs) return paragraphs.error();
    return AnalysedClasses{std::move(stored).take(n), std::move(levels).take(n), *std::move(paragraphs)};
}

/// Returns both maps of the line from `start` up to `end` (L1 to L3), by the classes and the levels of characters alone. It
/// takes `Moves::characters` or `Moves::marks`. The maps count from the line's first character.
/// Faults: those of a `Line`, BAD_FLAGS for other moves.
inline Result<Maps> try_line_order(Span<const Class> classes, Span<const Level> levels,
                                   const unicode_bidi_paragraph &paragraph, std::size_t start, std::size_t end,
                                   Moves moves = Moves::characters) noexcept {
    const std::size_t room = start <= end && end <= classes.size() ? end - start : 0;
    detail::Buffer<std::size_t> places(room);
    if (!places.is_allocated()) return Fault::no_memory;
    auto order = detail::written<std::size_t>(room, [&](std::size_t *out, std::size_t) {
        return unicode_bidi_line_order(detail::numbers(classes), classes.size(), detail::not_null(levels.data()),
                                       levels.size(), &paragraph, start, end, static_cast<std::uint32_t>(moves), out, room,
                                       places.data(), room);
    });
    if (!order) return order.error();
    return Maps{*std::move(order), std::move(places).take(room)};
}

/// Returns the inverse of a map, for `count` characters: element j is the first visual index at which `order` has j, or
/// `nowhere`. Elements of `order` that are not below `count` are passed over.
/// Faults: NO_MEMORY alone.
inline Result<Array<std::size_t>> try_places(Span<const std::size_t> order, std::size_t count) noexcept {
    return detail::written<std::size_t>(count, [order](std::size_t *out, std::size_t room) {
        return unicode_bidi_places(detail::not_null(order.data()), order.size(), out, room);
    });
}

// ---- Of one character ----

/// Returns the class of a character by Unicode's own data. Does not allocate.
/// Faults: NOT_SCALAR.
inline Result<Class> try_class_of(char32_t character) noexcept {
    return detail::result_of<Class>(unicode_bidi_class_of(character));
}

/// Returns which bracket a character is, by Unicode's own data. Does not allocate.
/// Faults: NOT_SCALAR.
inline Result<Bracket> try_bracket_of(char32_t character) noexcept {
    const std::int64_t returned = unicode_bidi_bracket_of(character);
    if (returned < 0) return detail::fault_of(returned);
    return Bracket{static_cast<std::uint32_t>(returned)};
}

/// Returns the mirrored partner of a character (Bidi_Mirroring_Glyph), or the character itself if it has none. Does not
/// allocate. L4 displays the partner at an odd level.
/// Faults: NOT_SCALAR.
inline Result<char32_t> try_mirrored(char32_t character) noexcept {
    return detail::result_of<char32_t>(unicode_bidi_mirrored(character));
}

// ---- Of levels, and versions ----

/// Returns the visual order of any items (L2), by their levels after L1. Element i is the index of the item at visual
/// position i.
/// Faults: BAD_LEVEL.
inline Result<Array<std::size_t>> try_reorder_visual(Span<const Level> levels) noexcept {
    return detail::written<std::size_t>(levels.size(), [levels](std::size_t *out, std::size_t room) {
        return unicode_bidi_reorder_visual(detail::not_null(levels.data()), levels.size(), out, room);
    });
}

namespace detail {

inline Version version_of(std::int64_t number) noexcept {
    const int whole = static_cast<int>(number);
    return {whole / 10000, whole / 100 % 100, whole % 100};
}

} // namespace detail

/// Returns the version of the library that is linked. Has no faults.
inline Version version() noexcept { return detail::version_of(unicode_bidi_version()); }

/// Returns the version of Unicode's data in the library that is linked. Has no faults.
inline Version unicode_version() noexcept { return detail::version_of(unicode_bidi_unicode_version()); }

#ifdef UNICODE_BIDI_EXCEPTIONS

/// Like `try_display`, but throws `Error`.
template <class String>
DisplayedText<detail::CharOf<String>> display(const String &text, DisplayOptions options = {},
                                              BaseLevel base = std::nullopt, Split split = Split::each_separator) {
    return try_display(text, options, base, split).value();
}

/// Like `try_paragraphs`, but throws `Error`.
template <class String>
FoundParagraphs paragraphs(const String &text, BaseLevel base = std::nullopt, Split split = Split::each_separator) {
    return try_paragraphs(text, base, split).value();
}

/// Like `try_base_direction`, but throws `Error`.
template <class String>
Direction base_direction(const String &text, Search search = Search::first_paragraph) {
    return try_base_direction(text, search).value();
}

/// Like `try_base_direction` by the caller's tables, but throws `Error`.
template <class String>
Direction base_direction(const Tables &tables, const String &text, Search search = Search::first_paragraph) {
    return try_base_direction(tables, text, search).value();
}

/// Like `try_first_direction`, but throws `Error`.
template <class String>
Direction first_direction(const String &text, Search search = Search::first_paragraph) {
    return try_first_direction(text, search).value();
}

/// Like `try_base_direction_of_classes`, but throws `Error`.
inline Direction base_direction_of_classes(Span<const Class> classes, Search search = Search::first_paragraph) {
    return try_base_direction_of_classes(classes, search).value();
}

/// Like `try_classes`, but throws `Error`.
template <class String>
Array<Class> classes(const String &text) {
    return try_classes(text).value();
}

/// Like `try_brackets`, but throws `Error`.
template <class String>
Array<Bracket> brackets(const String &text) {
    return try_brackets(text).value();
}

/// Like `try_analyse_classes`, but throws `Error`.
inline AnalysedClasses analyse_classes(Span<const Class> classes, Span<const Bracket> brackets = {},
                                       BaseLevel base = std::nullopt, Split split = Split::each_separator) {
    return try_analyse_classes(classes, brackets, base, split).value();
}

/// Like `try_line_order`, but throws `Error`.
inline Maps line_order(Span<const Class> classes, Span<const Level> levels, const unicode_bidi_paragraph &paragraph,
                       std::size_t start, std::size_t end, Moves moves = Moves::characters) {
    return try_line_order(classes, levels, paragraph, start, end, moves).value();
}

/// Like `try_places`, but throws `Error`.
inline Array<std::size_t> places(Span<const std::size_t> order, std::size_t count) {
    return try_places(order, count).value();
}

/// Like `try_class_of`, but throws `Error`.
inline Class class_of(char32_t character) { return try_class_of(character).value(); }

/// Like `try_bracket_of`, but throws `Error`.
inline Bracket bracket_of(char32_t character) { return try_bracket_of(character).value(); }

/// Like `try_mirrored`, but throws `Error`.
inline char32_t mirrored(char32_t character) { return try_mirrored(character).value(); }

/// Like `try_reorder_visual`, but throws `Error`.
inline Array<std::size_t> reorder_visual(Span<const Level> levels) { return try_reorder_visual(levels).value(); }

#endif

} // namespace unicode_bidi

#endif
