//! The program: document 01, "Whole pages, keeping, program", from "The program reads four lines from standard input" on.

use crate::block::Block;
use crate::page;
use crate::refusal::Refusal;

/// The most digits of a line.
const MOST_DIGITS: usize = 8_192;
/// The most bytes of an input that is not malformed: four lines of that many digits, each ended by byte 0a.
pub const MOST_INPUT: usize = 4 * (MOST_DIGITS + 1);

/// What a lower-case hex digit says.
fn digit(byte: u8) -> Option<u8> {
    match byte {
        b'0'..=b'9' => Some(byte - b'0'),
        b'a'..=b'f' => Some(byte - b'a' + 10),
        _ => None,
    }
}

/// The bytes that a line says.
fn bytes(line: &[u8]) -> Option<Vec<u8>> {
    if line.len() > MOST_DIGITS || line.len() % 2 != 0 {
        return None;
    }
    line.chunks(2).map(|pair| Some(16 * digit(pair[0])? + digit(pair[1])?)).collect()
}

/// Key, IV, associated data and text.
fn lines(input: &[u8]) -> Option<[Vec<u8>; 4]> {
    let parts: Vec<&[u8]> = input.split(|byte| *byte == b'\n').collect();
    let [key, iv, ad, text, after] = parts[..] else {
        return None;
    };
    if !after.is_empty() {
        return None;
    }
    Some([bytes(key)?, bytes(iv)?, bytes(ad)?, bytes(text)?])
}

/// The ciphertext and the tag. Refuses 11, then what a seal refuses.
fn sealed(input: &[u8]) -> Result<(Vec<u8>, Block), Refusal> {
    let [key, iv, ad, text] = lines(input).ok_or(Refusal::Malformed)?;
    let mut cipher = vec![0; text.len()];
    let tag = page::seal(&key, &iv, &ad, &text, &mut cipher)?;
    Ok((cipher, tag))
}

/// Two lower-case hex digits for each byte.
pub(crate) fn hex(bytes: &[u8]) -> String {
    bytes.iter().map(|byte| format!("{byte:02x}")).collect()
}

/// What is printed for an input.
pub fn output(input: &[u8]) -> String {
    match sealed(input) {
        Ok((cipher, tag)) => format!("cipher={}\nauth={}\n", hex(&cipher), hex(&tag)),
        Err(refusal) => format!("refused {}\n", refusal as u64),
    }
}
