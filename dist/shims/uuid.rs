//! What the sources use of `uuid`: the text with hyphens.
pub struct Uuid([u8; 16]);

impl Uuid {
    pub fn encode_buffer() -> [u8; 45] {
        [0; 45]
    }

    pub fn from_bytes(bytes: [u8; 16]) -> Uuid {
        Uuid(bytes)
    }

    pub fn hyphenated(self) -> Uuid {
        self
    }

    pub fn encode_lower<'a>(&self, room: &'a mut [u8]) -> &'a mut str {
        let mut at = 0;
        for (bytes, len) in [(0..4, 8), (4..6, 4), (6..8, 4), (8..10, 4), (10..16, 12)] {
            super::hex::encode_to_slice(&self.0[bytes], &mut room[at..at + len]).expect("two digits for a byte");
            room[at + len] = b'-';
            at += len + 1;
        }
        core::str::from_utf8_mut(&mut room[..36]).expect("digits and hyphens")
    }
}
