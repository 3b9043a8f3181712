//! Other ways to make the check: a table of 16 columns, and the processor's own instruction.

/// The remainders of a byte that 0 to 15 zero bytes follow.
static TABLES: [[u32; 256]; 16] = {
    let mut tables = [[0; 256]; 16];
    let mut byte = 0;
    while byte < 256 {
        let mut register = byte as u32;
        let mut bit = 0;
        while bit < 8 {
            register = (register >> 1) ^ (if register & 1 == 1 { 0x82f6_3b78 } else { 0 });
            bit += 1;
        }
        tables[0][byte] = register;
        byte += 1;
    }
    let mut column = 1;
    while column < 16 {
        let mut byte = 0;
        while byte < 256 {
            let before = tables[column - 1][byte];
            tables[column][byte] = (before >> 8) ^ tables[0][(before & 0xff) as usize];
            byte += 1;
        }
        column += 1;
    }
    tables
};

/// Sixteen bytes at a time.
pub fn by_16(bytes: &[u8]) -> u32 {
    let mut register = u32::MAX;
    let mut chunks = bytes.chunks_exact(16);
    for chunk in &mut chunks {
        let first = register.to_le_bytes();
        register = 0;
        for (i, &byte) in chunk.iter().enumerate() {
            let byte = if i < 4 { byte ^ first[i] } else { byte };
            register ^= TABLES[15 - i][byte as usize];
        }
    }
    for &byte in chunks.remainder() {
        register = (register >> 8) ^ TABLES[0][((register ^ u32::from(byte)) & 0xff) as usize];
    }
    !register
}

/// The instruction `crc32` of x86-64, which the crate `crc32c` takes where it can, here one stream of eight bytes at a time.
pub fn by_instruction(bytes: &[u8]) -> Option<u32> {
    #[cfg(target_arch = "x86_64")]
    if std::is_x86_feature_detected!("sse4.2") {
        return Some(unsafe { instruction(bytes) });
    }
    let _ = bytes;
    None
}

#[cfg(target_arch = "x86_64")]
#[target_feature(enable = "sse4.2")]
unsafe fn instruction(bytes: &[u8]) -> u32 {
    use std::arch::x86_64::{_mm_crc32_u64, _mm_crc32_u8};
    let mut register = u64::from(u32::MAX);
    let mut chunks = bytes.chunks_exact(8);
    for chunk in &mut chunks {
        register = _mm_crc32_u64(register, u64::from_le_bytes(chunk.try_into().unwrap()));
    }
    let mut register = register as u32;
    for &byte in chunks.remainder() {
        register = _mm_crc32_u8(register, byte);
    }
    !register
}
