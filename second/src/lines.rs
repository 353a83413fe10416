//! The lines of a ticket (01, "The ticket", first paragraph; 02, Papers 1 and 3).

use crate::refusal::{Reason, Refusal};

/// One line: its number, and its digits without the closing 0A.
#[derive(Clone, Copy, Debug)]
pub struct Line<'a> {
    /// Counted from 1.
    pub number: u16,
    digits: &'a [u8],
}

impl Line<'_> {
    /// The first byte.
    pub fn kind(&self) -> u8 {
        self.byte(0)
    }

    /// How many bytes the digits make; never 0.
    pub fn length(&self) -> usize {
        self.digits.len() / 2
    }

    /// The byte at `index`.
    pub fn byte(&self, index: usize) -> u8 {
        let [high, low] = [0, 1].map(|k| digit_value(self.digits[2 * index + k]));
        16 * high + low
    }

    /// The number in `width` bytes from `index` on, most significant first.
    pub fn number_at(&self, index: usize, width: usize) -> u64 {
        (index..index + width).fold(0, |number, at| number << 8 | u64::from(self.byte(at)))
    }

    /// This line refused.
    pub fn refused(&self, reason: Reason) -> Refusal {
        reason.at_line(self.number)
    }
}

/// What a digit stands for; letters are of either case (02, Paper 1). Paper 3 has
/// these values in a table; here they stay a rule, by which a table is checked.
fn digit_value(digit: u8) -> u8 {
    match digit {
        b'0'..=b'9' => digit - b'0',
        b'A'..=b'F' => digit - b'A' + 10,
        _ => digit - b'a' + 10,
    }
}

/// The lines of a text from first to last. What is no line is refused (2).
#[derive(Clone, Debug)]
pub struct Lines<'a> {
    rest: &'a [u8],
    read: u16,
}

impl<'a> Lines<'a> {
    /// All lines of `text`, which has at most 65,534 bytes.
    pub fn of(text: &'a [u8]) -> Self {
        Lines { rest: text, read: 0 }
    }

    /// The next line, which must be there and of one of the `allowed` kinds
    /// and lengths (refusal 3).
    pub fn expect(&mut self, allowed: &[(u8, usize)]) -> Result<Line<'a>, Refusal> {
        let over = Reason::MisplacedLine.at_line(self.read + 1);
        let line = self.next().unwrap_or(Err(over))?;
        if allowed.contains(&(line.kind(), line.length())) {
            Ok(line)
        } else {
            Err(line.refused(Reason::MisplacedLine))
        }
    }
}

impl<'a> Iterator for Lines<'a> {
    type Item = Result<Line<'a>, Refusal>;

    fn next(&mut self) -> Option<Self::Item> {
        if self.rest.is_empty() {
            return None;
        }
        self.read += 1;
        let count = self.rest.iter().take_while(|byte| byte.is_ascii_hexdigit()).count();
        let (digits, rest) = self.rest.split_at(count);
        if count == 0 || count % 2 == 1 || rest.first() != Some(&b'\n') {
            return Some(Err(Reason::NotALine.at_line(self.read)));
        }
        self.rest = &rest[1..];
        Some(Ok(Line { number: self.read, digits }))
    }
}

#[cfg(test)]
mod tests {
    use super::*;

    /// The 22 digits of Paper 1, each with its value, as Paper 3's table has them.
    #[rustfmt::skip]
    const DIGITS: [(u8, u8); 22] = [
        (b'0', 0), (b'1', 1), (b'2', 2), (b'3', 3), (b'4', 4),
        (b'5', 5), (b'6', 6), (b'7', 7), (b'8', 8), (b'9', 9),
        (b'A', 10), (b'B', 11), (b'C', 12), (b'D', 13), (b'E', 14), (b'F', 15),
        (b'a', 10), (b'b', 11), (b'c', 12), (b'd', 13), (b'e', 14), (b'f', 15),
    ];

    #[test]
    fn digits_make_bytes_most_significant_first() {
        let line = Lines::of(b"02FF0A1B2C3D\n").next().unwrap().unwrap();
        assert_eq!((line.kind(), line.length()), (2, 6));
        assert_eq!(line.number_at(1, 5), 0xFF_0A1B_2C3D);
    }

    #[test]
    fn letters_of_either_case_make_the_same_bytes() {
        let bytes = |text: &[u8]| Lines::of(text).next().unwrap().unwrap().number_at(0, 6);
        for text in ["02abcdefaf09\n", "02ABCDEFAF09\n", "02aBcDeFaf09\n", "02AbCdEfAF09\n"] {
            assert_eq!(bytes(text.as_bytes()), 0x02AB_CDEF_AF09, "{text:?}");
        }
    }

    #[test]
    fn these_22_bytes_are_digits_and_no_other() {
        for byte in 0..=u8::MAX {
            let value = DIGITS.iter().find(|(digit, _)| *digit == byte).map(|(_, value)| value);
            for (text, weight) in [([byte, b'0', b'\n'], 16), ([b'0', byte, b'\n'], 1)] {
                let line = Lines::of(&text).next().unwrap().ok();
                let kind = line.map(|line| line.kind());
                assert_eq!(kind, value.map(|value| value * weight), "{text:?}");
            }
        }
    }

    #[test]
    fn what_is_no_line_is_refused_at_its_number() {
        let wrong = ["", "0", "040", "4", "a", "04 ", " 04", "04\r", "G0", "@0", "/0", ":0"];
        let small = ["g0", "0g", "`0", "0`", "0x04", "Aag", "\x10\x14", "\x190"];
        for text in wrong.into_iter().chain(small) {
            let text = format!("04\n{text}\n");
            let mut lines = Lines::of(text.as_bytes());
            assert!(lines.next().unwrap().is_ok());
            let refusal = lines.next().unwrap().unwrap_err();
            assert_eq!(refusal, Reason::NotALine.at_line(2), "{text:?}");
        }
        for unclosed in [&b"04"[..], b"04*", b"04*04\n", b"0a"] {
            let refusal = Lines::of(unclosed).next().unwrap().unwrap_err();
            assert_eq!(refusal, Reason::NotALine.at_line(1));
        }
    }

    #[test]
    fn a_text_that_is_over_is_refused_one_past_its_last_line() {
        let mut lines = Lines::of(b"04\n");
        assert!(lines.expect(&[(4, 1)]).is_ok());
        let refusal = lines.expect(&[(4, 1)]).unwrap_err();
        assert_eq!(refusal, Reason::MisplacedLine.at_line(2));
    }
}
