//! AES-128 by four tables, each an S-box value times a column of MixColumns' matrix.

const fn double(b: u8) -> u8 {
    (b << 1) ^ ((b >> 7) * 0x1b)
}

// The S-box, walking the field by the generator 3 (p) and its inverse (q), so that q is always 1 / p.
const fn make_sbox() -> [u8; 256] {
    let mut sbox = [0u8; 256];
    sbox[0] = 0x63;
    let (mut p, mut q) = (1u8, 1u8);
    loop {
        p ^= double(p);
        q ^= q << 1;
        q ^= q << 2;
        q ^= q << 4;
        if q & 0x80 != 0 {
            q ^= 0x09;
        }
        sbox[p as usize] = q ^ q.rotate_left(1) ^ q.rotate_left(2) ^ q.rotate_left(3) ^ q.rotate_left(4) ^ 0x63;
        if p == 1 {
            return sbox;
        }
    }
}

const fn make_table(row: u32) -> [u32; 256] {
    let mut table = [0u32; 256];
    let mut i = 0;
    while i < 256 {
        let s = SBOX[i];
        let d = double(s);
        table[i] = u32::from_be_bytes([d, s, s, d ^ s]).rotate_right(8 * row);
        i += 1;
    }
    table
}

static SBOX: [u8; 256] = make_sbox();
static T0: [u32; 256] = make_table(0);
static T1: [u32; 256] = make_table(1);
static T2: [u32; 256] = make_table(2);
static T3: [u32; 256] = make_table(3);

pub struct Aes128 {
    round_keys: [[u32; 4]; 11],
}

fn byte(word: u32, row: u32) -> usize {
    (word >> (24 - 8 * row)) as usize & 0xff
}

fn sub_word(word: u32) -> u32 {
    word.to_be_bytes().iter().fold(0, |out, &b| out << 8 | u32::from(SBOX[b as usize]))
}

fn words(bytes: &[u8; 16]) -> [u32; 4] {
    std::array::from_fn(|c| u32::from_be_bytes([bytes[4 * c], bytes[4 * c + 1], bytes[4 * c + 2], bytes[4 * c + 3]]))
}

impl Aes128 {
    pub fn new(key: &[u8; 16]) -> Self {
        let mut round_keys = [[0u32; 4]; 11];
        round_keys[0] = words(key);
        let mut constant = 1u8;
        for round in 1..11 {
            let last = round_keys[round - 1];
            let mut word = sub_word(last[3].rotate_left(8)) ^ u32::from(constant) << 24;
            for c in 0..4 {
                word ^= last[c];
                round_keys[round][c] = word;
            }
            constant = double(constant);
        }
        Aes128 { round_keys }
    }

    /// The round keys as octets, in FIPS 197's order.
    pub fn expanded(&self) -> [u8; 176] {
        let mut out = [0u8; 176];
        for (at, word) in self.round_keys.iter().flatten().enumerate() {
            out[4 * at..4 * at + 4].copy_from_slice(&word.to_be_bytes());
        }
        out
    }

    pub fn encrypt(&self, block: &[u8; 16]) -> [u8; 16] {
        let input = words(block);
        let mut s: [u32; 4] = std::array::from_fn(|c| input[c] ^ self.round_keys[0][c]);
        for key in &self.round_keys[1..10] {
            s = std::array::from_fn(|c| {
                T0[byte(s[c], 0)] ^ T1[byte(s[(c + 1) % 4], 1)] ^ T2[byte(s[(c + 2) % 4], 2)] ^ T3[byte(s[(c + 3) % 4], 3)] ^ key[c]
            });
        }
        let mut out = [0u8; 16];
        for c in 0..4 {
            for row in 0..4 {
                let b = SBOX[byte(s[(c + row) % 4], row as u32)];
                out[4 * c + row] = b ^ (self.round_keys[10][c] >> (24 - 8 * row)) as u8;
            }
        }
        out
    }
}

#[cfg(test)]
mod tests {
    use super::Aes128;

    // FIPS 197, appendix C.1.
    #[test]
    fn appendix_c_1() {
        let key = std::array::from_fn(|i| i as u8);
        let block = std::array::from_fn(|i| 0x11 * i as u8);
        let expected = 0x69c4e0d86a7b0430d8cdb78070b4c55au128.to_be_bytes();
        assert_eq!(Aes128::new(&key).encrypt(&block), expected);
    }
}
