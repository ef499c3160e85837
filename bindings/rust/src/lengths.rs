//! Lengths as a person writes them: whole steps of 1/1000 mm, exactly, when the program is compiled.

/// A number as it is written, times so many steps, in steps: of [`mm!`](crate::mm) and [`inch!`](crate::inch).
///
/// # Panics
/// Where it isn't at most 14 digits with a point among them, or the length is no multiple of 1/1000 mm; in a constant that is an error of the compiler.
#[doc(hidden)]
#[must_use]
pub const fn steps(text: &str, unit: i64) -> i64 {
    const MOST: i64 = 100_000_000_000_000;
    let text = text.as_bytes();
    let is_below = text[0] == b'-';
    let (mut at, mut digits, mut below, mut has_point) = (is_below as usize, 0, 1, false);
    while at < text.len() {
        let letter = text[at];
        assert!(
            (letter.is_ascii_digit() || letter == b'_' || (letter == b'.' && !has_point)) && digits < MOST && below < MOST,
            "a length is written in at most 14 digits, with a point among them"
        );
        if letter.is_ascii_digit() {
            digits = digits * 10 + (letter - b'0') as i64;
            below *= if has_point { 10 } else { 1 };
        }
        has_point = has_point || letter == b'.';
        at += 1;
    }
    assert!(digits * unit % below == 0, "a length is a multiple of 1/1000 mm");
    digits * unit / below * if is_below { -1 } else { 1 }
}

/// Millimetres in steps of 1/1000 mm, exactly: `mm!(12.5)` is 12500. What is no multiple of the step, such as `mm!(0.0005)`, doesn't compile.
///
/// ```
/// assert_eq!([gwb::mm!(12.5), gwb::mm!(-3), gwb::inch!(0.25)], [12_500, -3_000, 6_350]);
/// ```
#[macro_export]
macro_rules! mm {
    ($length:literal) => {{
        const STEPS: i64 = $crate::lengths::steps(stringify!($length), 1_000);
        STEPS
    }};
}

/// Inches, of 25.4 mm, alike.
#[macro_export]
macro_rules! inch {
    ($length:literal) => {{
        const STEPS: i64 = $crate::lengths::steps(stringify!($length), 25_400);
        STEPS
    }};
}
