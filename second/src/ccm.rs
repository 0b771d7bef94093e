//! CCM (RFC 3610) with AES-128, M = 8 and L = 2, for 1 to 64 octets of authenticated data.

use crate::aes::Aes128;

const CODE: usize = 8;

pub struct Ccm {
    cipher: Aes128,
}

fn block(flags: u8, nonce: &[u8; 13], number: usize) -> [u8; 16] {
    let mut out = [0; 16];
    out[0] = flags;
    out[1..14].copy_from_slice(nonce);
    out[14..].copy_from_slice(&(number as u16).to_be_bytes());
    out
}

fn xor(block: &mut [u8; 16], octets: &[u8]) {
    for (x, y) in block.iter_mut().zip(octets) {
        *x ^= y;
    }
}

fn lengths_allowed(aad: usize, body: usize) -> bool {
    (1..=64).contains(&aad) && body <= 65_535
}

impl Ccm {
    pub fn new(key: &[u8; 16]) -> Self {
        Ccm { cipher: Aes128::new(key) }
    }

    // The chain over the first block and the authenticated data.
    fn begin(&self, nonce: &[u8; 13], aad: &[u8], body: usize) -> [u8; 16] {
        let mut data = [0; 80];
        data[..2].copy_from_slice(&(aad.len() as u16).to_be_bytes());
        data[2..2 + aad.len()].copy_from_slice(aad);
        let mut x = self.cipher.encrypt(&block(0x59, nonce, body));
        for part in data[..2 + aad.len()].chunks(16) {
            xor(&mut x, part);
            x = self.cipher.encrypt(&x);
        }
        x
    }

    fn key_block(&self, nonce: &[u8; 13], counter: usize) -> [u8; 16] {
        self.cipher.encrypt(&block(1, nonce, counter))
    }

    fn code(&self, nonce: &[u8; 13], mut x: [u8; 16]) -> [u8; CODE] {
        xor(&mut x, &self.key_block(nonce, 0));
        x[..CODE].try_into().unwrap()
    }

    /// Writes the encrypted body and its code to the front of `out` and gives their length.
    pub fn seal(&self, nonce: &[u8; 13], aad: &[u8], body: &[u8], out: &mut [u8]) -> Option<usize> {
        if !lengths_allowed(aad.len(), body.len()) || out.len() < body.len() + CODE {
            return None;
        }
        let mut x = self.begin(nonce, aad, body.len());
        for (i, part) in body.chunks(16).enumerate() {
            let mut key = self.key_block(nonce, i + 1);
            xor(&mut x, part);
            x = self.cipher.encrypt(&x);
            xor(&mut key, part);
            out[16 * i..16 * i + part.len()].copy_from_slice(&key[..part.len()]);
        }
        out[body.len()..body.len() + CODE].copy_from_slice(&self.code(nonce, x));
        Some(body.len() + CODE)
    }

    /// Writes the body to the front of `out` and gives its length. Where the code is wrong, what was written is cleared.
    pub fn open(&self, nonce: &[u8; 13], aad: &[u8], text: &[u8], out: &mut [u8]) -> Option<usize> {
        let length = text.len().checked_sub(CODE)?;
        if !lengths_allowed(aad.len(), length) || out.len() < length {
            return None;
        }
        let (body, code) = text.split_at(length);
        let mut x = self.begin(nonce, aad, length);
        for (i, part) in body.chunks(16).enumerate() {
            let mut key = self.key_block(nonce, i + 1);
            xor(&mut key, part);
            xor(&mut x, &key[..part.len()]);
            x = self.cipher.encrypt(&x);
            out[16 * i..16 * i + part.len()].copy_from_slice(&key[..part.len()]);
        }
        if self.code(nonce, x) != code {
            out[..length].fill(0);
            return None;
        }
        Some(length)
    }
}

#[cfg(test)]
mod tests {
    use super::Ccm;

    // RFC 3610, packet vector 1.
    #[test]
    fn packet_vector_1() {
        let key = std::array::from_fn(|i| 0xc0 + i as u8);
        let nonce = [0, 0, 0, 3, 2, 1, 0, 0xa0, 0xa1, 0xa2, 0xa3, 0xa4, 0xa5];
        let packet: Vec<u8> = (0..31).collect();
        let expected = [
            0x58, 0x8c, 0x97, 0x9a, 0x61, 0xc6, 0x63, 0xd2, 0xf0, 0x66, 0xd0, 0xc2, 0xc0, 0xf9, 0x89, 0x80, 0x6d, 0x5f, 0x6b, 0x61, 0xda, 0xc3, 0x84, 0x17,
            0xe8, 0xd1, 0x2c, 0xfd, 0xf9, 0x26, 0xe0,
        ];
        let (ccm, mut sealed, mut opened) = (Ccm::new(&key), [0; 40], [0; 40]);
        assert_eq!(ccm.seal(&nonce, &packet[..8], &packet[8..], &mut sealed), Some(31));
        assert_eq!(sealed[..31], expected);
        assert_eq!(ccm.open(&nonce, &packet[..8], &expected, &mut opened), Some(23));
        assert_eq!(opened[..23], packet[8..]);
    }
}
