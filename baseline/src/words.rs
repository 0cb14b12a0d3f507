//! Lines, words and numbers: the spellings that all texts share.

use crate::fault::{FaultKind, OfLine};

/// The place of the next LF, or of the end of the text.
pub fn line_end(text: &[u8], from: usize) -> usize {
    const ONES: u64 = 0x0101_0101_0101_0101;
    let mut at = from;
    while let Some(bytes) = text.get(at..at + 8) {
        let word = u64::from_le_bytes(bytes.try_into().unwrap()) ^ (ONES * b'\n' as u64);
        let zeros = word.wrapping_sub(ONES) & !word & (ONES << 7);
        if zeros != 0 {
            return at + (zeros.trailing_zeros() / 8) as usize;
        }
        at += 8;
    }
    text[at..].iter().position(|&byte| byte == b'\n').map_or(text.len(), |more| at + more)
}

pub fn first_word(line: &[u8]) -> &[u8] {
    line.split(|&byte| byte == b' ').next().unwrap_or(line)
}

/// Whether a line has only printable bytes and single spaces between its words.
pub fn has_form(line: &[u8]) -> bool {
    let mut before = b' ';
    let mut is_right = true;
    for &byte in line {
        is_right &= (0x20..0x7f).contains(&byte) & !(byte == b' ' && before == b' ');
        before = byte;
    }
    is_right && before != b' '
}

/// The words of a line that must have exactly `N` words.
pub fn exactly<const N: usize>(line: &[u8]) -> OfLine<[&[u8]; N]> {
    if !has_form(line) {
        return Err(FaultKind::Form);
    }
    parts(line, b' ')
}

/// Exactly `N` parts with a separator between them; a part may be empty.
pub fn parts<const N: usize>(text: &[u8], separator: u8) -> OfLine<[&[u8]; N]> {
    let mut found = [&text[..0]; N];
    let mut count = 0;
    for part in text.split(|&byte| byte == separator) {
        *found.get_mut(count).ok_or(FaultKind::Form)? = part;
        count += 1;
    }
    if count == N {
        Ok(found)
    } else {
        Err(FaultKind::Form)
    }
}

pub fn n64(word: &[u8]) -> OfLine<u64> {
    match word {
        [b'0'] => Ok(0),
        [b'1'..=b'9', ..] if word.len() <= 20 => decimal(word).ok_or(FaultKind::Number),
        _ => Err(FaultKind::Number),
    }
}

fn decimal(word: &[u8]) -> Option<u64> {
    word.iter().try_fold(0u64, |value, &byte| {
        let digit = byte.wrapping_sub(b'0');
        if digit > 9 {
            return None;
        }
        value.checked_mul(10)?.checked_add(digit as u64)
    })
}

pub fn n32(word: &[u8]) -> OfLine<u32> {
    u32::try_from(n64(word)?).map_err(|_| FaultKind::Number)
}

pub fn n16(word: &[u8]) -> OfLine<u16> {
    u16::try_from(n64(word)?).map_err(|_| FaultKind::Number)
}

pub fn n8(word: &[u8]) -> OfLine<u8> {
    u8::try_from(n64(word)?).map_err(|_| FaultKind::Number)
}

pub fn address(word: &[u8]) -> OfLine<u64> {
    match word {
        b"0x0" => Ok(0),
        [b'0', b'x', b'1'..=b'9' | b'a'..=b'f', ..] if word.len() <= 18 => {
            let value = word[2..].iter().try_fold(0, |value, &byte| {
                let digit = HEX[byte as usize];
                (digit < 16).then(|| value << 4 | digit as u64)
            });
            value.ok_or(FaultKind::Number)
        }
        _ => Err(FaultKind::Number),
    }
}

/// The value of each hexadecimal digit in lower case, and 255 for other bytes.
pub const HEX: [u8; 256] = {
    let mut table = [255; 256];
    let mut value = 0;
    while value < 16 {
        table[b"0123456789abcdef"[value] as usize] = value as u8;
        value += 1;
    }
    table
};

#[cfg(test)]
mod tests {
    use super::*;

    #[test]
    fn each_number_has_one_spelling() {
        assert_eq!(n64(b"18446744073709551615"), Ok(u64::MAX));
        assert_eq!(n32(b"4294967295"), Ok(u32::MAX));
        for word in ["", "00", "01", "+1", "1a", "18446744073709551616", "99999999999999999999", "-0"] {
            assert_eq!(n64(word.as_bytes()), Err(FaultKind::Number), "{word}");
        }
        assert_eq!(
            (n8(b"256"), n16(b"65536"), n32(b"4294967296")),
            (Err(FaultKind::Number), Err(FaultKind::Number), Err(FaultKind::Number))
        );
    }

    #[test]
    fn each_address_has_one_spelling() {
        assert_eq!(address(b"0xffffffffffffffff"), Ok(u64::MAX));
        assert_eq!(address(b"0x7f0000001000"), Ok(0x7f00_0000_1000));
        for word in ["0x00", "0x01", "0x1F", "0X1", "1f", "0x", "0x10000000000000000", "0x1 "] {
            assert_eq!(address(word.as_bytes()), Err(FaultKind::Number), "{word}");
        }
    }

    #[test]
    fn words_have_single_spaces_between_them() {
        for line in ["a", "a b", "~ !", "step 4"] {
            assert!(has_form(line.as_bytes()), "{line}");
        }
        for line in ["", " ", " a", "a ", "a  b", "a\tb", "a\r", "\x7f", "a\u{e9}"] {
            assert!(!has_form(line.as_bytes()), "{line}");
        }
    }

    #[test]
    fn line_ends_are_found_at_each_place() {
        for length in 0..40 {
            for from in 0..=length {
                let mut text = vec![b'a'; length];
                assert_eq!(line_end(&text, from), length);
                for at in from..length {
                    text[at] = b'\n';
                    assert_eq!(line_end(&text, from), at);
                    text[at] = 0x8a;
                }
            }
        }
    }
}
