//! Messages as bytes.

use crate::text;

/// A message of this type byte and body.
pub fn whole(type_byte: u8, body: &[&[u8]]) -> Vec<u8> {
    let mut message = vec![type_byte, 0, 0, 0, 0];
    message.extend(body.concat());
    count_all(&mut message);
    message
}

/// Makes the length field say that these bytes are the message.
pub fn count_all(message: &mut [u8]) {
    let length = message.len() as u32 - 1;
    message[1..5].copy_from_slice(&length.to_be_bytes());
}

/// D with so many bytes of content.
pub fn data(length: u32) -> Vec<u8> {
    let content = text::letters(length as usize);
    whole(0x44, &[&[0, 1], &length.to_be_bytes(), &content])
}

/// V with so many parameters of two empty texts, and no extension: 5 + 8 + 8 * count bytes.
pub fn handshake(count: u16) -> Vec<u8> {
    let parameters = vec![0; 8 * usize::from(count)];
    whole(
        0x56,
        &[&[0, 1, 0, 0], &count.to_be_bytes(), &parameters, &[0, 0]],
    )
}
