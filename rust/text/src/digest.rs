//! The digest of a table's bytes, SHA-256 as FIPS 180-4 has it, and how a text states one.

/// The word that a digest begins with.
const BEGINS: &str = "sha256-";

/// The fewest and the most digits of a digest that a text states.
const DIGITS: std::ops::RangeInclusive<usize> = 8..=64;

/// What a text must state where a digest is due.
pub const DUE: &str = "`sha256-` and 8 to 64 hexadecimal digits";

/// The bytes of a block.
const BLOCK: usize = 64;

/// The state before the first block: the first bits of the square roots' fractions of the first 8 primes.
const FIRST: [u32; 8] = [
    0x6a09e667, 0xbb67ae85, 0x3c6ef372, 0xa54ff53a, 0x510e527f, 0x9b05688c, 0x1f83d9ab, 0x5be0cd19,
];

/// A number for each round: the first bits of the cube roots' fractions of the first 64 primes.
const ROUNDS: [u32; 64] = [
    0x428a2f98, 0x71374491, 0xb5c0fbcf, 0xe9b5dba5, 0x3956c25b, 0x59f111f1, 0x923f82a4, 0xab1c5ed5,
    0xd807aa98, 0x12835b01, 0x243185be, 0x550c7dc3, 0x72be5d74, 0x80deb1fe, 0x9bdc06a7, 0xc19bf174,
    0xe49b69c1, 0xefbe4786, 0x0fc19dc6, 0x240ca1cc, 0x2de92c6f, 0x4a7484aa, 0x5cb0a9dc, 0x76f988da,
    0x983e5152, 0xa831c66d, 0xb00327c8, 0xbf597fc7, 0xc6e00bf3, 0xd5a79147, 0x06ca6351, 0x14292967,
    0x27b70a85, 0x2e1b2138, 0x4d2c6dfc, 0x53380d13, 0x650a7354, 0x766a0abb, 0x81c2c92e, 0x92722c85,
    0xa2bfe8a1, 0xa81a664b, 0xc24b8b70, 0xc76c51a3, 0xd192e819, 0xd6990624, 0xf40e3585, 0x106aa070,
    0x19a4c116, 0x1e376c08, 0x2748774c, 0x34b0bcb5, 0x391c0cb3, 0x4ed8aa4a, 0x5b9cca4f, 0x682e6ff3,
    0x748f82ee, 0x78a5636f, 0x84c87814, 0x8cc70208, 0x90befffa, 0xa4506ceb, 0xbef9a3f7, 0xc67178f2,
];

/// The word of each round that a block gives.
fn words_of(block: &[u8]) -> [u32; 64] {
    let mut words = [0; 64];
    for (word, bytes) in words.iter_mut().zip(block.chunks_exact(4)) {
        *word = u32::from_be_bytes([bytes[0], bytes[1], bytes[2], bytes[3]]);
    }
    for at in 16..64 {
        let (near, far) = (words[at - 15], words[at - 2]);
        let near = near.rotate_right(7) ^ near.rotate_right(18) ^ (near >> 3);
        let far = far.rotate_right(17) ^ far.rotate_right(19) ^ (far >> 10);
        let before = words[at - 16].wrapping_add(words[at - 7]);
        words[at] = before.wrapping_add(near).wrapping_add(far);
    }
    words
}

/// The state after a block.
fn after(state: [u32; 8], block: &[u8]) -> [u32; 8] {
    let [mut a, mut b, mut c, mut d, mut e, mut f, mut g, mut h] = state;
    for (word, round) in words_of(block).into_iter().zip(ROUNDS) {
        let turned = e.rotate_right(6) ^ e.rotate_right(11) ^ e.rotate_right(25);
        let chosen = (e & f) ^ (!e & g);
        let first = h.wrapping_add(turned).wrapping_add(chosen);
        let first = first.wrapping_add(round).wrapping_add(word);
        let turned = a.rotate_right(2) ^ a.rotate_right(13) ^ a.rotate_right(22);
        let second = turned.wrapping_add((a & b) ^ (a & c) ^ (b & c));
        (h, g, f, e) = (g, f, e, d.wrapping_add(first));
        (d, c, b, a) = (c, b, a, first.wrapping_add(second));
    }
    let changed = [a, b, c, d, e, f, g, h];
    std::array::from_fn(|at| state[at].wrapping_add(changed[at]))
}

/// The last blocks: the bytes that fill no block, a bit, noughts, and the length of all bytes in bits.
fn last_blocks(rest: &[u8], length: usize) -> Vec<u8> {
    let mut last = rest.to_vec();
    last.push(0x80);
    while last.len() % BLOCK != BLOCK - 8 {
        last.push(0);
    }
    last.extend((length as u64 * 8).to_be_bytes());
    last
}

/// The digest of bytes: `sha256-` and the 64 hexadecimal digits of their SHA-256.
pub fn digest(bytes: &[u8]) -> String {
    let whole = bytes.chunks_exact(BLOCK);
    let last = last_blocks(whole.remainder(), bytes.len());
    let state = whole.chain(last.chunks_exact(BLOCK)).fold(FIRST, after);
    let digits: String = state.iter().map(|word| format!("{word:08x}")).collect();
    format!("{BEGINS}{digits}")
}

/// The digest that a word states, in small letters, or what is wrong with the word.
pub fn stated(word: &str) -> Result<String, String> {
    let Some(digits) = word.strip_prefix(BEGINS) else {
        return Err(String::new());
    };
    if let Some(other) = digits.chars().find(|c| !c.is_ascii_hexdigit()) {
        return Err(format!(", in which `{other}` is no such digit"));
    }
    if !DIGITS.contains(&digits.len()) {
        let plural = if digits.len() == 1 { "" } else { "s" };
        return Err(format!(", which has {} digit{plural}", digits.len()));
    }
    Ok(word.to_ascii_lowercase())
}
