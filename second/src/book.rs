//! The frame book: a key on line 1, then a frame to seal or to open on each line, answered line by line.

use crate::frame::{Answer, Receiver, Sender, ADDED};
use std::io::{self, BufRead, BufReader, Read, Write};

/// The most octets of a line, without its line feed.
pub const LONGEST: usize = 16_000;
/// The most octets of a frame, which follows a word of four octets and a tab, and what sealing adds.
const ROOM: usize = (LONGEST - 5) / 2 + ADDED;
/// Of the receiver's windows.
const WINDOW_SIZE: u8 = 1;
/// Octets read or written at a time.
const PIECE: usize = 1 << 16;

const BAD_DIGIT: u8 = 0xff;

static DIGITS: [u8; 16] = *b"0123456789abcdef";

/// The value of each octet as a digit.
static VALUES: [u8; 256] = {
    let mut values = [BAD_DIGIT; 256];
    let mut value = 0;
    while value < 16 {
        values[DIGITS[value] as usize] = value as u8;
        value += 1;
    }
    values
};

/// The octets of these digits, in the front of `room`.
fn decode<'a>(digits: &[u8], room: &'a mut [u8]) -> Option<&'a [u8]> {
    let octets = room.get_mut(..digits.len() / 2)?;
    let mut seen = 0;
    for (octet, pair) in octets.iter_mut().zip(digits.chunks_exact(2)) {
        let (high, low) = (VALUES[usize::from(pair[0])], VALUES[usize::from(pair[1])]);
        seen |= high | low;
        *octet = high << 4 | low;
    }
    (digits.len().is_multiple_of(2) && seen != BAD_DIGIT).then_some(octets)
}

fn decode_exactly<const N: usize>(digits: &[u8]) -> Option<[u8; N]> {
    let mut octets = [0; N];
    let length = decode(digits, &mut octets)?.len();
    (length == N).then_some(octets)
}

fn write_octets(octets: &[u8], output: &mut Vec<u8>) {
    let start = output.len();
    output.resize(start + 2 * octets.len(), 0);
    for (pair, octet) in output[start..].chunks_exact_mut(2).zip(octets) {
        pair[0] = DIGITS[usize::from(octet >> 4)];
        pair[1] = DIGITS[usize::from(octet & 0x0f)];
    }
}

fn write_number(mut number: u64, output: &mut Vec<u8>) {
    let mut digits = [0; 20];
    let mut first = digits.len();
    while first == digits.len() || number > 0 {
        first -= 1;
        digits[first] = b'0' + (number % 10) as u8;
        number /= 10;
    }
    output.extend_from_slice(&digits[first..]);
}

/// Reads a line, without its line feed, or the first octets of one that is too long. False where there is none left.
fn next_line(input: &mut impl BufRead, line: &mut Vec<u8>) -> io::Result<bool> {
    line.clear();
    input.take(LONGEST as u64 + 1).read_until(b'\n', line)?;
    if line.last() == Some(&b'\n') {
        line.pop();
        return Ok(true);
    }
    if line.len() > LONGEST {
        input.skip_until(b'\n')?;
    }
    Ok(!line.is_empty())
}

/// The two records, and room for a frame and its result.
struct Book {
    sender: Sender,
    receiver: Receiver,
    frame: [u8; ROOM],
    result: [u8; ROOM],
}

impl Book {
    /// The book that line 1 begins, if it is a good one.
    fn begin(line: &[u8]) -> Option<Self> {
        let fields: Vec<&[u8]> = line.split(|&octet| octet == b'\t').collect();
        let [b"key", key, [digit @ b'0'..=b'3'], own, peer] = fields[..] else {
            return None;
        };
        let (key, key_id) = (decode_exactly(key)?, digit - b'0');
        let (_, sender) = Sender::fresh(key, key_id, decode_exactly(own)?);
        let (_, receiver) = Receiver::fresh(key, key_id, decode_exactly(peer)?, WINDOW_SIZE);
        Some(Book { sender, receiver, frame: [0; ROOM], result: [0; ROOM] })
    }

    /// The word and the answer of a later line, if it is well formed. A result is in the front of `self.result`.
    fn answer(&mut self, line: &[u8]) -> Option<(&'static [u8], Answer)> {
        if line.len() > LONGEST {
            return None;
        }
        match line.split_at_checked(5)? {
            (b"seal\t", digits) => Some((b"\tseal\t", self.sender.seal(decode(digits, &mut self.frame)?, &mut self.result))),
            (b"open\t", digits) => Some((b"\topen\t", self.receiver.open(decode(digits, &mut self.frame)?, &mut self.result))),
            _ => None,
        }
    }

    /// Writes the output line of a later line.
    fn write_answer(&mut self, number: u64, line: &[u8], output: &mut Vec<u8>) {
        write_number(number, output);
        match self.answer(line) {
            None => output.extend_from_slice(b"\tbad"),
            Some((word, Err(refusal))) => {
                output.extend_from_slice(word);
                write_number(refusal as u64, output);
                output.extend_from_slice(b"\t-");
            }
            Some((word, Ok(done))) => {
                output.extend_from_slice(word);
                output.extend_from_slice(b"0\t");
                write_octets(&self.result[..done.written], output);
            }
        }
        output.push(b'\n');
    }
}

/// Reads a whole book and answers it.
pub fn run(input: impl Read, mut output: impl Write) -> io::Result<()> {
    let mut input = BufReader::with_capacity(PIECE, input);
    let mut line = Vec::with_capacity(LONGEST + 1);
    if !next_line(&mut input, &mut line)? {
        return Ok(());
    }
    let Some(mut book) = Book::begin(&line) else {
        return output.write_all(b"1\tbad\n");
    };
    let mut answers = Vec::with_capacity(2 * PIECE);
    let mut number = 1;
    while next_line(&mut input, &mut line)? {
        number += 1;
        book.write_answer(number, &line, &mut answers);
        if answers.len() >= PIECE {
            output.write_all(&answers)?;
            answers.clear();
        }
    }
    output.write_all(&answers)
}

#[cfg(test)]
mod tests {
    use super::run;

    const KEY: &str = "key\t000102030405060708090a0b0c0d0e0f\t0\t020000000001\t020000000001\n";
    const PLAIN: &str = "08000000ffffffffffff0200000000010200000000030000aa";

    fn answers(book: &[u8]) -> String {
        let mut output = Vec::new();
        run(book, &mut output).unwrap();
        String::from_utf8(output).unwrap()
    }

    fn later(lines: impl AsRef<[u8]>) -> String {
        answers(&[KEY.as_bytes(), lines.as_ref()].concat())
    }

    #[test]
    fn whole_run() {
        assert_eq!(later("open\t08\nseal\t\nsend\t08\n"), "2\topen\t2\t-\n3\tseal\t2\t-\n4\tbad\n");
    }

    #[test]
    fn first_line() {
        assert_eq!([answers(b""), answers(b"\n"), answers(KEY.as_bytes()), answers(KEY.trim_end().as_bytes())], ["", "1\tbad\n", "", ""]);
        let others = [KEY.replace("\t0\t", "\t4\t"), KEY.replace("\t0\t", "\t\t"), KEY.replace("\t0\t", "\t00\t"), KEY.replace('\n', "\r\n")];
        for bad in others.into_iter().chain([KEY.replace('\n', "\t\n"), KEY.replace("0f", "0F"), KEY.replace("0f", ""), KEY.replace("key", "keys")]) {
            assert_eq!(answers(format!("{bad}seal\t\n").as_bytes()), "1\tbad\n");
        }
    }

    #[test]
    fn malformed_lines() {
        let words = ["", "seal", "seals\t", "sea\t", "SEAL\t", "seal 08", KEY.trim_end()];
        let digits = ["seal\t\t", "seal\t08\t", "seal\t08\r", "seal\t0", "seal\t0A", "seal\t0g"];
        for bad in words.into_iter().chain(digits) {
            assert_eq!(later(format!("{bad}\nopen\t")), "2\tbad\n3\topen\t2\t-\n");
        }
        assert_eq!(later(b"seal\t0\0\n\0\n\xff\x0b\x0c\x85"), "2\tbad\n3\tbad\n4\tbad\n");
    }

    #[test]
    fn long_lines() {
        let line = |length: usize, tail: &str| format!("seal\t{}{tail}", "0".repeat(length - 5));
        assert_eq!(later(line(15_999, "\n")), "2\tseal\t3\t-\n");
        for length in [16_000, 16_001, 16_002, 200_000] {
            assert_eq!(later(line(length, "\nseal\t")), "2\tbad\n3\tseal\t2\t-\n");
            assert_eq!(later(line(length, "open\t\n\n")), "2\tbad\n3\tbad\n");
            assert_eq!(later(line(length, "")), "2\tbad\n");
        }
    }

    #[test]
    fn sealed_and_opened() {
        let written = later(format!("seal\t{PLAIN}\nseal\t{PLAIN}a\nseal\t{PLAIN}"));
        let sealed: Vec<&str> = written.lines().map(|line| line.rsplit('\t').next().unwrap()).collect();
        assert_eq!((&sealed[0][48..64], sealed[1], &sealed[2][48..64]), ("0100002000000000", "bad", "0200002000000000"));
        let expected = format!("2\topen\t0\t{PLAIN}\n3\topen\t10\t-\n4\topen\t0\t{PLAIN}\n");
        assert_eq!(later(format!("open\t{}\nopen\t{}\nopen\t{}", sealed[0], sealed[0], sealed[2])), expected);
    }
}
