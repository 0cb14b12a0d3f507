//! Writing numbers and addresses.

/// The most bytes that a number takes, with room for stores that go too far.
pub const MOST_DIGITS: usize = 40;

const PAIRS: [[u8; 2]; 100] = {
    let mut pairs = [[0; 2]; 100];
    let mut at = 0;
    while at < 100 {
        pairs[at] = [b'0' + (at / 10) as u8, b'0' + (at % 10) as u8];
        at += 1;
    }
    pairs
};

/// Writes a decimal number at the start of some room, and gives its length.
#[inline]
pub fn put_decimal(room: &mut [u8], number: u64) -> usize {
    if number < 10 {
        room[0] = b'0' + number as u8;
        return 1;
    }
    if number < 100 {
        room[..2].copy_from_slice(&PAIRS[number as usize]);
        return 2;
    }
    put_large(room, number)
}

#[inline(never)]
fn put_large(room: &mut [u8], number: u64) -> usize {
    let mut digits = [0; 20];
    let mut at = 20;
    let mut rest = number;
    while rest >= 100 {
        at -= 2;
        digits[at..at + 2].copy_from_slice(&PAIRS[(rest % 100) as usize]);
        rest /= 100;
    }
    if rest >= 10 {
        at -= 2;
        digits[at..at + 2].copy_from_slice(&PAIRS[rest as usize]);
    } else {
        at -= 1;
        digits[at] = b'0' + rest as u8;
    }
    room[..20 - at].copy_from_slice(&digits[at..]);
    20 - at
}

/// The hexadecimal digits of a number, from the first one that is not 0, and their number, which is 0 for 0.
#[inline]
fn hex_of(number: u32) -> (u64, usize) {
    const LOW: u64 = 0x0f0f_0f0f_0f0f_0f0f;
    let mut nibbles = number as u64;
    nibbles = (nibbles << 16 | nibbles) & 0x0000_ffff_0000_ffff;
    nibbles = (nibbles << 8 | nibbles) & 0x00ff_00ff_00ff_00ff;
    nibbles = (nibbles << 4 | nibbles) & LOW;
    // A nibble above 9 gets the bit of 16 by the addition of 6, and with it the distance from '0' + 10 to 'a'.
    let above = (nibbles + 0x0606_0606_0606_0606) >> 4 & 0x0101_0101_0101_0101;
    let digits = nibbles + 0x3030_3030_3030_3030 + above * (b'a' - b'0' - 10) as u64;
    let length = 8 - number.leading_zeros() as usize / 4;
    // In memory the first digit comes first.
    let leading = 8 * (8 - length as u32);
    (digits.swap_bytes().checked_shr(leading).unwrap_or(0), length)
}

/// The spelling of an address of a page without its `0x`, with room for 16 digits, and its length.
#[derive(Clone, Copy)]
pub struct PageAddress {
    pub digits: [u8; 16],
    pub length: usize,
}

impl PageAddress {
    /// The address of the page of this number, 4096 bytes each from address 0 on; below 2^52.
    #[inline]
    pub fn of(page: u64) -> PageAddress {
        if page == 0 {
            let mut digits = [0; 16];
            digits[0] = b'0';
            return PageAddress { digits, length: 1 };
        }
        let (low, length) = match u32::try_from(page) {
            Ok(page) => hex_of(page),
            Err(_) => return PageAddress::of_large(page),
        };
        let all = low as u128 | 0x303030 << (8 * length);
        PageAddress { digits: all.to_le_bytes(), length: length + 3 }
    }

    #[inline(never)]
    fn of_large(page: u64) -> PageAddress {
        let (high, length) = hex_of((page >> 32) as u32);
        let mut digits = [b'0'; 16];
        digits[..length].copy_from_slice(&high.to_le_bytes()[..length]);
        for nibble in 0..8 {
            digits[length + nibble] = b"0123456789abcdef"[(page >> (28 - 4 * nibble)) as usize & 15];
        }
        PageAddress { digits, length: length + 11 }
    }
}

/// Writes an address with its `0x`, and gives its length.
#[inline]
pub fn put_address(room: &mut [u8], address: u64) -> usize {
    room[..2].copy_from_slice(b"0x");
    let (high, low) = (hex_of((address >> 32) as u32), hex_of(address as u32));
    if address == 0 {
        room[2] = b'0';
        return 3;
    }
    if high.1 == 0 {
        room[2..10].copy_from_slice(&low.0.to_le_bytes());
        return 2 + low.1;
    }
    room[2..10].copy_from_slice(&high.0.to_le_bytes());
    for nibble in 0..8 {
        room[2 + high.1 + nibble] = b"0123456789abcdef"[(address >> (28 - 4 * nibble)) as usize & 15];
    }
    2 + high.1 + 8
}

#[cfg(test)]
mod tests {
    use super::*;

    fn numbers() -> impl Iterator<Item = u64> {
        let powers = (0..64).map(|power| 1u64 << power).chain((0..20).map(|power| 10u64.pow(power)));
        powers.flat_map(|it| [it - 1, it, it + 1, it + it / 2]).chain([0, u64::MAX, 0x9a9f_09af])
    }

    #[test]
    fn decimals_are_those_of_the_library() {
        for number in numbers() {
            let mut room = [0; MOST_DIGITS];
            let length = put_decimal(&mut room, number);
            assert_eq!(std::str::from_utf8(&room[..length]), Ok(&number.to_string()[..]));
        }
    }

    #[test]
    fn addresses_are_those_of_the_library() {
        for number in numbers() {
            let mut room = [0; MOST_DIGITS];
            let length = put_address(&mut room, number);
            assert_eq!(std::str::from_utf8(&room[..length]), Ok(&format!("{number:#x}")[..]));
            let page = number >> 12;
            let short = PageAddress::of(page);
            let spelt = std::str::from_utf8(&short.digits[..short.length]).unwrap();
            assert_eq!(format!("0x{spelt}"), format!("{:#x}", page << 12));
        }
    }
}
