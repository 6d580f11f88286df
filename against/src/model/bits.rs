//! Bits in bytes: "Bits are numbered from 1 and packed most significant bit first."

/// "L bits take exactly L/8 bytes rounded up".
pub fn bytes_for(bits: usize) -> usize {
    bits.div_ceil(8)
}

/// All bits of some bytes, in order.
pub fn bits_of_bytes(bytes: &[u8]) -> Vec<bool> {
    let mut bits = Vec::with_capacity(8 * bytes.len());
    for byte in bytes {
        for place in (0..8).rev() {
            bits.push(byte >> place & 1 == 1);
        }
    }
    bits
}

/// The bytes that some bits take; "the leftover low bits of the last byte are zero".
pub fn bytes_of_bits(bits: &[bool]) -> Vec<u8> {
    let mut bytes = vec![0; bytes_for(bits.len())];
    for (index, bit) in bits.iter().enumerate() {
        if *bit {
            bytes[index / 8] |= 1 << (7 - index % 8);
        }
    }
    bytes
}
