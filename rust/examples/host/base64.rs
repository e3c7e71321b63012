//! Base64 with the usual 64 characters, padded when written, padded or not when read.

const ALPHABET: &[u8; 64] = b"ABCDEFGHIJKLMNOPQRSTUVWXYZabcdefghijklmnopqrstuvwxyz0123456789+/";

pub fn write(bytes: &[u8]) -> String {
    let mut text = String::new();
    for chunk in bytes.chunks(3) {
        let at = |i: usize| chunk.get(i).copied().unwrap_or(0) as usize;
        let bits = at(0) << 16 | at(1) << 8 | at(2);
        for place in 0..4 {
            text.push(match place <= chunk.len() {
                true => ALPHABET[bits >> (18 - 6 * place) & 63] as char,
                false => '=',
            });
        }
    }
    text
}

pub fn read(text: &str) -> Result<Vec<u8>, String> {
    let body = text.trim().trim_end_matches('=');
    let mut values = vec![];
    for (place, c) in body.char_indices() {
        match ALPHABET.iter().position(|a| *a as char == c) {
            Some(value) => values.push(value),
            None => return Err(format!("{c:?} at place {place} is no character of base64")),
        }
    }
    let mut bytes = vec![];
    for chunk in values.chunks(4) {
        if chunk.len() == 1 {
            return Err("base64 ends in the middle of a byte".to_string());
        }
        let at = |i: usize| chunk.get(i).copied().unwrap_or(0);
        let bits = at(0) << 18 | at(1) << 12 | at(2) << 6 | at(3);
        let whole = [(bits >> 16) as u8, (bits >> 8) as u8, bits as u8];
        if whole[chunk.len() - 1..].iter().any(|byte| *byte != 0) {
            return Err("base64 ends in bits that belong to no byte".to_string());
        }
        bytes.extend(&whole[..chunk.len() - 1]);
    }
    Ok(bytes)
}
