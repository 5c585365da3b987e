//! CRC32 in the reflected form, eight bytes at a step.

/// Castagnoli's polynomial, reflected.
pub const POLYNOMIAL: u32 = 0x82F6_3B78;

/// `TABLES[n][byte]`: the remainder of a byte with n zero bytes after it.
static TABLES: [[u32; 256]; 8] = tables();

const fn tables() -> [[u32; 256]; 8] {
    let mut tables = [[0; 256]; 8];
    let mut byte = 0;
    while byte < 256 {
        let mut remainder = byte as u32;
        let mut bit = 0;
        while bit < 8 {
            let low = remainder & 1;
            remainder >>= 1;
            if low == 1 {
                remainder ^= POLYNOMIAL;
            }
            bit += 1;
        }
        tables[0][byte] = remainder;
        byte += 1;
    }
    let mut n = 1;
    while n < 8 {
        let mut byte = 0;
        while byte < 256 {
            let before = tables[n - 1][byte];
            tables[n][byte] = (before >> 8) ^ tables[0][(before & 0xFF) as usize];
            byte += 1;
        }
        n += 1;
    }
    tables
}

pub fn crc32(bytes: &[u8]) -> u32 {
    crc32_continued(0, bytes)
}

/// The CRC32 of bytes whose CRC32 is `before`, followed by these.
pub fn crc32_continued(before: u32, bytes: &[u8]) -> u32 {
    let mut state = !before;
    let mut chunks = bytes.chunks_exact(8);
    for chunk in &mut chunks {
        let low = u32::from_le_bytes([chunk[0], chunk[1], chunk[2], chunk[3]]) ^ state;
        let high = u32::from_le_bytes([chunk[4], chunk[5], chunk[6], chunk[7]]);
        state = TABLES[7][(low & 0xFF) as usize]
            ^ TABLES[6][(low >> 8 & 0xFF) as usize]
            ^ TABLES[5][(low >> 16 & 0xFF) as usize]
            ^ TABLES[4][(low >> 24) as usize]
            ^ TABLES[3][(high & 0xFF) as usize]
            ^ TABLES[2][(high >> 8 & 0xFF) as usize]
            ^ TABLES[1][(high >> 16 & 0xFF) as usize]
            ^ TABLES[0][(high >> 24) as usize];
    }
    for &byte in chunks.remainder() {
        state = (state >> 8) ^ TABLES[0][((state ^ u32::from(byte)) & 0xFF) as usize];
    }
    !state
}

#[cfg(test)]
mod tests {
    use super::*;

    /// One bit at a step, from the definition.
    fn by_bits(bytes: &[u8]) -> u32 {
        let mut state = u32::MAX;
        for &byte in bytes {
            state ^= u32::from(byte);
            for _ in 0..8 {
                state = (state >> 1) ^ if state & 1 == 1 { POLYNOMIAL } else { 0 };
            }
        }
        !state
    }

    #[test]
    fn published_check_value() {
        assert_eq!(crc32(b"123456789"), 0xE306_9283);
    }

    #[test]
    fn same_as_bit_by_bit() {
        let mut rng = crate::rng::Rng::new(1);
        for length in 0..600 {
            let bytes = rng.bytes(length);
            assert_eq!(crc32(&bytes), by_bits(&bytes));
            let cut = length / 3;
            let first = crc32(&bytes[..cut]);
            assert_eq!(crc32_continued(first, &bytes[cut..]), by_bits(&bytes));
        }
    }
}
