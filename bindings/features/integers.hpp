/// @file integers.hpp Whole numbers of more than 128 bits. A product has the words of both factors, so that types state how large numbers come to be; a sum has
/// those of its parts, which leave it a bit at least.
#pragma once
#include "shapes.hpp"

namespace gwb_session::integers {

using namespace machining;

/// A whole number of so many words of 64 bits, the lowest first, in two's complement.
template <std::size_t words> struct Int {
    std::array<std::uint64_t, words> word{};

    Int() = default;
    explicit Int(Wide number)
    {
        static_assert(words >= 2, "it holds 128 bits");
        word.fill(number < 0 ? ~std::uint64_t{0} : 0);
        word[0] = static_cast<std::uint64_t>(number), word[1] = static_cast<std::uint64_t>(number >> 64);
    }

    [[nodiscard]] bool is_zero() const { return all(word, [](std::uint64_t part) { return part == 0; }); }
    [[nodiscard]] int sign() const { return word[words - 1] >> 63 != 0 ? -1 : is_zero() ? 0 : 1; }
    [[nodiscard]] Int magnitude() const { return sign() < 0 ? -*this : *this; }
    /// The number in 128 bits, which hold it.
    [[nodiscard]] Wide narrow() const { return static_cast<Wide>(static_cast<Unsigned>(word[1]) << 64 | word[0]); }
    [[nodiscard]] bool is_narrow() const { return Int(narrow()) == *this; }
    /// How many bits a number has that isn't negative.
    [[nodiscard]] std::size_t bits() const
    {
        std::size_t at = words;
        while (at > 0 && word[at - 1] == 0)
            at--;
        return at == 0 ? 0 : 64 * at - static_cast<std::size_t>(__builtin_clzll(word[at - 1]));
    }

    Int operator-() const
    {
        Int found;
        Unsigned carried = 1;
        for (std::size_t at = 0; at < words; at++, carried >>= 64)
            found.word[at] = static_cast<std::uint64_t>(carried += static_cast<std::uint64_t>(~word[at]));
        return found;
    }
    friend Int operator+(const Int &a, const Int &b)
    {
        Int found;
        Unsigned carried = 0;
        for (std::size_t at = 0; at < words; at++, carried >>= 64)
            found.word[at] = static_cast<std::uint64_t>(carried += static_cast<Unsigned>(a.word[at]) + b.word[at]);
        return found;
    }
    friend Int operator-(const Int &a, const Int &b) { return a + -b; }
    friend bool operator==(const Int &a, const Int &b) { return a.word == b.word; }
    friend bool operator<(const Int &a, const Int &b) { return (a - b).sign() < 0; }

    /// Twice to the so manieth power as much, which it holds.
    [[nodiscard]] Int raised(std::size_t shift) const
    {
        Int found;
        for (std::size_t at = words; at-- > shift / 64;) {
            found.word[at] = word[at - shift / 64] << shift % 64;
            if (shift % 64 != 0 && at > shift / 64)
                found.word[at] |= word[at - shift / 64 - 1] >> (64 - shift % 64);
        }
        return found;
    }
};

template <std::size_t one, std::size_t other> Int<one + other> operator*(const Int<one> &a, const Int<other> &b)
{
    const auto factor = a.magnitude().word;
    const auto factors = b.magnitude().word;
    Int<one + other> found;
    for (std::size_t place = 0; place < one; place++) {
        Unsigned carried = 0;
        for (std::size_t at = 0; at < other; at++, carried >>= 64)
            found.word[place + at] = static_cast<std::uint64_t>(carried += static_cast<Unsigned>(factor[place]) * factors[at] + found.word[place + at]);
        found.word[place + other] = static_cast<std::uint64_t>(carried);
    }
    return a.sign() * b.sign() < 0 ? -found : found;
}
inline Int<4> product_of(Wide a, Wide b) { return Int<2>(a) * Int<2>(b); }

/// How often one number goes into another one, neither of them negative, and what is left of that.
template <std::size_t words> std::pair<Int<words>, Int<words>> divided(Int<words> number, const Int<words> &by)
{
    Int<words> times;
    for (std::size_t shift = number.bits() - std::min(number.bits(), by.bits()) + 1; shift-- > 0;)
        if (const Int<words> part = by.raised(shift); !(number < part)) {
            number = number - part;
            times.word[shift / 64] |= std::uint64_t{1} << shift % 64;
        }
    return {times, number};
}

template <std::size_t words> Int<words> greatest_divisor(Int<words> a, Int<words> b)
{
    a = a.magnitude(), b = b.magnitude();
    while (!b.is_zero() && !(a.is_narrow() && b.is_narrow()))
        a = std::exchange(b, divided(a, b).second);
    return b.is_zero() ? a : Int<words>(exact::greatest_divisor(a.narrow(), b.narrow()));
}

/// Normals whose parts lie within `steepest`, and ways that are the cross products of two of these: 2 steepest^2, which 128 bits hold.
inline Int<4> wide_dot(const Vector &a, const Vector &b) { return product_of(a[0], b[0]) + product_of(a[1], b[1]) + product_of(a[2], b[2]); }

/// The sign of a dot product, however large that is.
inline int sign_of_dot(const Vector &a, const Vector &b)
{
    constexpr Wide half = Wide{1} << 62;
    return longest(a) < half && longest(b) < half ? sign(dot(a, b)) : wide_dot(a, b).sign();
}

/// Where a point lies: above zero before a plane, below it behind.
inline int side_of(const Plane &plane, const ScaledPoint &point)
{
    return point.scale == 1 ? sign(plane.height(point.at)) : (wide_dot(plane.across, point.at) + product_of(plane.offset, point.scale)).sign();
}

} // namespace gwb_session::integers
