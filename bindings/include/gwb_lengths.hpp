/// @file gwb_lengths.hpp Lengths as a person writes them, for C++17: whole steps of 1/1000 mm, exactly, when the program is compiled.
///
///     using namespace gwb_session::lengths;
///     bench.block({0, 0, 0}, {12.5_mm, 0.25_in, 3_mm});               // {12500, 6350, 3000}
///
/// They are read from their characters: digits, a point among them, and separators. What is no multiple of the step, such as 0.0005_mm, doesn't compile.
#ifndef GWB_LENGTHS_HPP
#define GWB_LENGTHS_HPP
#include <cstddef>
#include <cstdint>

namespace gwb_session {
namespace lengths {

/// A number as it is written: its digits as one number, divided by a power of ten.
struct Decimal {
    std::int64_t digits, below;
    bool is_plain; ///< no exponent, no base but ten, at most 14 digits
};

/// The decimal of a literal's characters.
template <char... Text> constexpr Decimal decimal()
{
    constexpr char text[] = {Text..., '\0'};
    constexpr std::int64_t most = 100'000'000'000'000;
    Decimal found{0, 1, text[0] != '0' || text[1] < '0' || text[1] > '9'}; // (what begins with 0 and a digit is octal)
    bool has_point = false;
    for (std::size_t at = 0; at < sizeof...(Text); at++) {
        const char letter = text[at];
        const bool is_digit = letter >= '0' && letter <= '9';
        found.is_plain = found.is_plain && (is_digit || letter == '\'' || (letter == '.' && !has_point)) && found.digits < most && found.below < most;
        if (is_digit && found.is_plain) {
            found.digits = found.digits * 10 + (letter - '0');
            found.below *= has_point ? 10 : 1;
        }
        has_point = has_point || letter == '.';
    }
    return found;
}

/// A literal, times so many steps, in steps.
template <std::int64_t Unit, char... Text> constexpr std::int64_t steps()
{
    constexpr Decimal given = decimal<Text...>();
    static_assert(given.is_plain, "a length is written in at most 14 digits, with a point among them");
    static_assert(given.digits * Unit % given.below == 0, "a length is a multiple of 1/1000 mm");
    return given.digits * Unit / given.below;
}

/// Millimetres.
template <char... Text> constexpr std::int64_t operator""_mm() { return steps<1'000, Text...>(); }
/// Inches, of 25.4 mm.
template <char... Text> constexpr std::int64_t operator""_in() { return steps<25'400, Text...>(); }

} // namespace lengths
} // namespace gwb_session
#endif
