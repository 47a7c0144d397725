//! Numbers and texts as the command prints them.
use std::fmt::Write;
use std::ops::RangeInclusive;

const MOST_OF_A_MESSAGE: usize = 60;

// What Unicode calls format characters, and its separators of lines and paragraphs: they are not seen, and some turn around what stands beside them.
const UNSEEN: [RangeInclusive<char>; 21] = [
    '\u{ad}'..='\u{ad}',
    '\u{600}'..='\u{605}',
    '\u{61c}'..='\u{61c}',
    '\u{6dd}'..='\u{6dd}',
    '\u{70f}'..='\u{70f}',
    '\u{890}'..='\u{891}',
    '\u{8e2}'..='\u{8e2}',
    '\u{180e}'..='\u{180e}',
    '\u{200b}'..='\u{200f}',
    '\u{2028}'..='\u{202e}',
    '\u{2060}'..='\u{2064}',
    '\u{2066}'..='\u{206f}',
    '\u{feff}'..='\u{feff}',
    '\u{fff9}'..='\u{fffb}',
    '\u{110bd}'..='\u{110bd}',
    '\u{110cd}'..='\u{110cd}',
    '\u{13430}'..='\u{1343f}',
    '\u{1bca0}'..='\u{1bca3}',
    '\u{1d173}'..='\u{1d17a}',
    '\u{e0001}'..='\u{e0001}',
    '\u{e0020}'..='\u{e007f}',
];

/// A float in the fewest digits that read back the same. From 1e16 on, where whole numbers are left out, and below 1e-5 it has an exponent: no digit
/// is printed that only fills up.
pub fn number(x: f64) -> String {
    let size = x.abs();
    if size == 0.0 || !size.is_finite() || (1e-5..1e16).contains(&size) {
        format!("{x}")
    } else {
        format!("{x:e}")
    }
}

/// Bytes as one line: control and format characters, backslashes and what is not UTF-8 are escaped.
pub fn line(bytes: &[u8]) -> String {
    let mut out = String::new();
    for chunk in bytes.utf8_chunks() {
        chunk.valid().chars().for_each(|c| escape(c, &mut out));
        hexadecimal(chunk.invalid(), &mut out);
    }
    out
}

/// Bytes as one line between quotation marks.
pub fn quoted(bytes: &[u8]) -> String {
    format!("\"{}\"", line(bytes).replace('"', "\\\""))
}

/// Bytes as a message names them: as [`quoted`], and of many only the first and how many there are.
pub fn brief(bytes: &[u8]) -> String {
    let sizes = bytes.utf8_chunks().flat_map(|chunk| chunk.valid().chars().map(char::len_utf8).chain(chunk.invalid().iter().map(|_| 1)));
    let end = sizes.take(MOST_OF_A_MESSAGE).sum();
    if end == bytes.len() {
        quoted(bytes)
    } else {
        format!("{}... ({} bytes)", quoted(&bytes[..end]), bytes.len())
    }
}

fn escape(c: char, out: &mut String) {
    match c {
        '\\' => out.push_str("\\\\"),
        '\n' => out.push_str("\\n"),
        '\t' => out.push_str("\\t"),
        _ if c.is_control() || UNSEEN.iter().any(|range| range.contains(&c)) => hexadecimal(c.encode_utf8(&mut [0; 4]).as_bytes(), out),
        _ => out.push(c),
    }
}

fn hexadecimal(bytes: &[u8], out: &mut String) {
    for byte in bytes {
        write!(out, "\\x{byte:02x}").expect("a String takes every text");
    }
}

#[cfg(test)]
mod tests {
    use super::{brief, line, number, quoted};

    #[test]
    fn numbers_read_back_the_same() {
        let powers = (-1074..1024).map(|e| f64::powi(2.0, e));
        for x in powers.flat_map(|x| [x, -x, x / 3.0, x * 1.1, 1.0 / x]) {
            assert_eq!(number(x).parse::<f64>().map(f64::to_bits), Ok(x.to_bits()), "{x:e}");
        }
        assert!(number(f64::NAN).parse::<f64>().unwrap().is_nan());
    }

    // Without an exponent a whole number is printed to its last digit, so that its digits are exact.
    #[test]
    fn whole_numbers_are_exact() {
        for n in (1 << 52..=10u64.pow(16)).step_by(1_000_000_007 * 1001).chain(10u64.pow(16) - 64..10u64.pow(16)) {
            let x = n as f64;
            let exact = if x < 1e16 { format!("{}", x as u64) } else { "1e16".into() };
            assert_eq!(number(x), exact);
        }
    }

    #[test]
    fn numbers_are_short() {
        let pairs = [
            (42.5, "42.5"),
            (40.0, "40"),
            (-0.375, "-0.375"),
            (-0.0, "-0"),
            (0.1 + 0.2, "0.30000000000000004"),
            (1.0 / 3.0, "0.3333333333333333"),
            (9999999999999998.0, "9999999999999998"),
            (1e16, "1e16"),
            (2305843009213693952.0, "2.305843009213694e18"),
            (-1152921504606846976.0, "-1.152921504606847e18"),
            (1e21, "1e21"),
            (1e-5, "0.00001"),
            (9.5e-6, "9.5e-6"),
            (f64::MAX, "1.7976931348623157e308"),
            (5e-324, "5e-324"),
            (f64::INFINITY, "inf"),
            (f64::NEG_INFINITY, "-inf"),
            (f64::NAN, "NaN"),
        ];
        for (x, printed) in pairs {
            assert_eq!(number(x), printed);
        }
    }

    #[test]
    fn a_text_is_one_line() {
        assert_eq!(line("°C = 5|\"warm\"".as_bytes()), "°C = 5|\"warm\"");
        assert_eq!(line(b"a\\b\nc\td\x1b\x7f\xff"), "a\\\\b\\nc\\td\\x1b\\x7f\\xff");
        assert_eq!(line("\u{85}".as_bytes()), "\\xc2\\x85");
        assert_eq!(quoted(b"a\"b"), "\"a\\\"b\"");
    }

    #[test]
    fn a_message_is_short() {
        assert_eq!(brief("é".repeat(60).as_bytes()), format!("\"{}\"", "é".repeat(60)));
        assert_eq!(brief("é".repeat(61).as_bytes()), format!("\"{}\"... (122 bytes)", "é".repeat(60)));
        assert_eq!(brief(&[0xff; 61]), format!("\"{}\"... (61 bytes)", "\\xff".repeat(60)));
        assert_eq!(brief(b""), "\"\"");
    }
}
