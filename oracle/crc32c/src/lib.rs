//! Stands in for the external crate `crc32c`, which the original calls and which is not at hand: CRC32C written from RFC 3720,
//! appendix B.4, a byte at a time. The polynomial is 11EDC6F41; its bits are reflected here.

const POLYNOMIAL: u32 = 0x82f6_3b78;

/// The remainder of each byte, by eight steps of one bit.
const REMAINDERS: [u32; 256] = {
    let mut table = [0; 256];
    let mut byte = 0;
    while byte < 256 {
        let mut register = byte as u32;
        let mut bit = 0;
        while bit < 8 {
            register = (register >> 1) ^ (if register & 1 == 1 { POLYNOMIAL } else { 0 });
            bit += 1;
        }
        table[byte] = register;
        byte += 1;
    }
    table
};

/// The check of the bytes.
pub fn crc32c(bytes: &[u8]) -> u32 {
    let mut register = u32::MAX;
    for &byte in bytes {
        register = (register >> 8) ^ REMAINDERS[((register ^ u32::from(byte)) & 0xff) as usize];
    }
    !register
}

#[cfg(test)]
mod tests {
    use super::crc32c;

    /// The examples of RFC 3720, appendix B.4, each printed there with its first byte first.
    #[test]
    fn examples_of_the_rfc() {
        let rising: Vec<u8> = (0..32).collect();
        let falling: Vec<u8> = (0..32).rev().collect();
        assert_eq!(crc32c(&[0; 32]).to_le_bytes(), [0xaa, 0x36, 0x91, 0x8a]);
        assert_eq!(crc32c(&[0xff; 32]).to_le_bytes(), [0x43, 0xab, 0xa8, 0x62]);
        assert_eq!(crc32c(&rising).to_le_bytes(), [0x4e, 0x79, 0xdd, 0x46]);
        assert_eq!(crc32c(&falling).to_le_bytes(), [0x5c, 0xdb, 0x3f, 0x11]);
    }
}
