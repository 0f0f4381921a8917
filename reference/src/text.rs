//! Lines, fields and numbers of a script.

/// The longest line, its end not counted.
pub const LINE_LIMIT: usize = 200;
/// The longest input.
pub const INPUT_LIMIT: usize = 65_536;

const TAB: u8 = 9;
const NEWLINE: u8 = 10;
const MOST_DIGITS: usize = 6;

/// No line of a script needs more fields than this.
const KEPT_FIELDS: usize = 8;

/// The lines of an input; the last may lack its newline.
pub fn lines(input: &[u8]) -> impl Iterator<Item = &[u8]> {
    let body = input.strip_suffix(&[NEWLINE]).unwrap_or(input);
    let count = if input.is_empty() { 0 } else { usize::MAX };
    body.split(|&byte| byte == NEWLINE).take(count)
}

/// Whether a line is short enough and has only tabs and printable bytes.
pub fn is_text(line: &[u8]) -> bool {
    line.len() <= LINE_LIMIT && line.iter().all(|&byte| matches!(byte, TAB | 32..=126))
}

/// The fields of a line: how many there are, and the first few of them.
pub struct Fields<'a> {
    kept: [&'a [u8]; KEPT_FIELDS],
    count: usize,
}

impl<'a> Fields<'a> {
    pub fn of(line: &'a [u8]) -> Self {
        let mut fields = Fields {
            kept: [&[]; KEPT_FIELDS],
            count: 0,
        };
        for field in line.split(|&byte| byte == TAB) {
            if let Some(slot) = fields.kept.get_mut(fields.count) {
                *slot = field;
            }
            fields.count += 1;
        }
        fields
    }

    pub fn count(&self) -> usize {
        self.count
    }

    /// The field at this place, if the line has so many (and it is kept).
    pub fn get(&self, place: usize) -> Option<&'a [u8]> {
        self.kept[..self.count.min(KEPT_FIELDS)].get(place).copied()
    }
}

/// One to six digits.
pub fn number(field: &[u8]) -> Option<u32> {
    if field.is_empty() || field.len() > MOST_DIGITS {
        return None;
    }
    field.iter().try_fold(0, |value, byte| match byte {
        b'0'..=b'9' => Some(value * 10 + u32::from(byte - b'0')),
        _ => None,
    })
}

/// One to six digits, perhaps with a minus before them.
pub fn signed_number(field: &[u8]) -> Option<i32> {
    match field.strip_prefix(b"-") {
        Some(digits) => number(digits).map(|value| -(value as i32)),
        None => number(field).map(|value| value as i32),
    }
}

/// An answer line under construction.
pub struct LineBuffer {
    bytes: [u8; LineBuffer::ROOM],
    used: usize,
}

impl LineBuffer {
    /// No answer line is longer.
    const ROOM: usize = 80;

    pub fn new() -> Self {
        LineBuffer {
            bytes: [0; Self::ROOM],
            used: 0,
        }
    }

    pub fn as_bytes(&self) -> &[u8] {
        &self.bytes[..self.used]
    }

    pub fn push_bytes(&mut self, bytes: &[u8]) {
        self.bytes[self.used..self.used + bytes.len()].copy_from_slice(bytes);
        self.used += bytes.len();
    }

    pub fn push_number(&mut self, mut value: u32) {
        let mut digits = [0; 10];
        let mut first = digits.len();
        loop {
            first -= 1;
            digits[first] = b'0' + (value % 10) as u8;
            value /= 10;
            if value == 0 {
                break;
            }
        }
        self.push_bytes(&digits[first..]);
    }

    /// A tab and a word.
    pub fn push_word(&mut self, word: &str) {
        self.push_bytes(&[TAB]);
        self.push_bytes(word.as_bytes());
    }

    /// A tab and a number.
    pub fn push_field(&mut self, value: u32) {
        self.push_bytes(&[TAB]);
        self.push_number(value);
    }

    /// A tab and a number with its sign.
    pub fn push_signed_field(&mut self, value: i32) {
        self.push_bytes(&[TAB]);
        if value < 0 {
            self.push_bytes(b"-");
        }
        self.push_number(value.unsigned_abs());
    }

    pub fn end_line(&mut self) {
        self.push_bytes(&[NEWLINE]);
    }
}

impl Default for LineBuffer {
    fn default() -> Self {
        Self::new()
    }
}

#[cfg(test)]
mod tests {
    use super::*;

    #[test]
    fn lines_end_at_newlines() {
        assert_eq!(lines(b"").count(), 0);
        assert_eq!(lines(b"\n").collect::<Vec<_>>(), [b""]);
        assert_eq!(lines(b"a").collect::<Vec<_>>(), [b"a"]);
        assert_eq!(
            lines(b"a\n\nb\n").collect::<Vec<_>>(),
            [&b"a"[..], b"", b"b"]
        );
    }

    #[test]
    fn fields_are_one_more_than_tabs() {
        assert_eq!(Fields::of(b"").count(), 1);
        assert_eq!(Fields::of(b"\t\t").count(), 3);
        assert_eq!(Fields::of(b"a\t\tb").get(1), Some(&b""[..]));
        assert_eq!(Fields::of(b"a\tb").get(2), None);
        assert_eq!(Fields::of(&[TAB; 200]).count(), 201);
    }

    #[test]
    fn numbers_have_one_to_six_digits() {
        assert_eq!(number(b"0"), Some(0));
        assert_eq!(number(b"000012"), Some(12));
        assert_eq!(number(b"999999"), Some(999_999));
        for field in [&b""[..], b"0000012", b"-1", b"+1", b" 1", b"1 ", b"1x"] {
            assert_eq!(number(field), None);
        }
        assert_eq!(signed_number(b"-20000"), Some(-20_000));
        assert_eq!(signed_number(b"-000001"), Some(-1));
        assert_eq!(signed_number(b"-0"), Some(0));
        for field in [&b"-"[..], b"--1", b"-0000001", b"+1"] {
            assert_eq!(signed_number(field), None);
        }
    }

    #[test]
    fn text_is_tabs_and_printable_bytes() {
        assert!(is_text(b""));
        assert!(is_text(b"\t ~"));
        assert!(is_text(&[b'x'; 200]));
        assert!(!is_text(&[b'x'; 201]));
        for byte in [0, 8, 11, 13, 31, 127, 128, 255] {
            assert!(!is_text(&[byte]));
        }
    }

    #[test]
    fn numbers_are_printed_without_leading_zeros() {
        let mut line = LineBuffer::new();
        line.push_number(0);
        line.push_field(65_535);
        line.push_signed_field(-20_000);
        line.push_signed_field(0);
        assert_eq!(line.as_bytes(), b"0\t65535\t-20000\t0");
    }
}
