//! The digest of RFC 1321, written from the RFC's text.

/// Shift amounts of the four rounds (RFC 1321, section 3.4), used in turn.
const SHIFTS: [[u32; 4]; 4] = [
    [7, 12, 17, 22],
    [5, 9, 14, 20],
    [4, 11, 16, 23],
    [6, 10, 15, 21],
];

/// T[i] of section 3.4: the integer part of 4294967296 times abs(sin(i)), i from 1 to 64, in radians.
fn sines() -> [u32; 64] {
    let mut table = [0; 64];
    for (i, entry) in table.iter_mut().enumerate() {
        *entry = (4294967296.0 * ((i + 1) as f64).sin().abs()) as u32;
    }
    table
}

/// The auxiliary function of a round (F, G, H, I).
fn mixed(round: usize, x: u32, y: u32, z: u32) -> u32 {
    match round {
        0 => (x & y) | (!x & z),
        1 => (x & z) | (y & !z),
        2 => x ^ y ^ z,
        _ => y ^ (x | !z),
    }
}

/// The number k of the word that step i takes.
fn word_of(step: usize) -> usize {
    match step / 16 {
        0 => step,
        1 => (5 * step + 1) % 16,
        2 => (3 * step + 5) % 16,
        _ => (7 * step) % 16,
    }
}

/// Section 3.4: one block of 64 bytes.
fn block(state: &mut [u32; 4], bytes: &[u8], sines: &[u32; 64]) {
    let mut words = [0u32; 16];
    for (word, four) in words.iter_mut().zip(bytes.chunks(4)) {
        *word = u32::from_le_bytes([four[0], four[1], four[2], four[3]]);
    }
    let [mut a, mut b, mut c, mut d] = *state;
    for step in 0..64 {
        let round = step / 16;
        let sum = a
            .wrapping_add(mixed(round, b, c, d))
            .wrapping_add(words[word_of(step)])
            .wrapping_add(sines[step]);
        let next = b.wrapping_add(sum.rotate_left(SHIFTS[round][step % 4]));
        (a, d, c, b) = (d, c, b, next);
    }
    for (old, new) in state.iter_mut().zip([a, b, c, d]) {
        *old = old.wrapping_add(new);
    }
}

/// The 16 bytes of the digest of a message.
pub fn md5(message: &[u8]) -> [u8; 16] {
    let sines = sines();
    let mut state = [0x67452301, 0xefcdab89, 0x98badcfe, 0x10325476];
    let whole = message.len() / 64 * 64;
    for bytes in message[..whole].chunks(64) {
        block(&mut state, bytes, &sines);
    }
    // Sections 3.1 and 3.2: a bit 1, zeros up to 56 modulo 64 bytes, and the length in bits.
    let mut rest = message[whole..].to_vec();
    rest.push(0x80);
    while rest.len() % 64 != 56 {
        rest.push(0);
    }
    rest.extend((message.len() as u64).wrapping_mul(8).to_le_bytes());
    for bytes in rest.chunks(64) {
        block(&mut state, bytes, &sines);
    }
    let mut digest = [0; 16];
    for (four, word) in digest.chunks_mut(4).zip(state) {
        four.copy_from_slice(&word.to_le_bytes());
    }
    digest
}

#[cfg(test)]
mod tests {
    use super::md5;

    fn hex(message: &str) -> String {
        let digest = md5(message.as_bytes());
        digest.iter().map(|byte| format!("{byte:02x}")).collect()
    }

    /// The suite of RFC 1321, appendix A.5.
    #[test]
    fn suite() {
        let digits = "1234567890".repeat(8);
        let letters = "ABCDEFGHIJKLMNOPQRSTUVWXYZabcdefghijklmnopqrstuvwxyz0123456789";
        assert_eq!(hex(""), "d41d8cd98f00b204e9800998ecf8427e");
        assert_eq!(hex("a"), "0cc175b9c0f1b6a831c399e269772661");
        assert_eq!(hex("abc"), "900150983cd24fb0d6963f7d28e17f72");
        assert_eq!(hex("message digest"), "f96b697d7cb7938d525a2f31aaf161d0");
        assert_eq!(hex(&letters[26..52]), "c3fcd3d76192e4007dfb496cca67e13b");
        assert_eq!(hex(letters), "d174ab98d277d9f5a5611c2c9f419d9f");
        assert_eq!(hex(&digits), "57edf4a22be3c955ac49da2e2107b67a");
    }
}
