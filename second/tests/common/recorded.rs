//! What document 02, R-13 says of the keys, from the list of references alone: byte by byte, one entry after the other.

use second::{Reference, ReferenceKind, Request};

/// The keys after a call whose list is this.
pub fn keys_after(before: &[u8], request: &Request, references: &[Reference]) -> Vec<u8> {
    let mut keys = before.to_vec();
    for entry in references {
        let bits = if entry.kind == ReferenceKind::Store { 0x06 } else { 0x04 };
        for byte in &entry.bytes {
            keys[*byte as usize / 2_048] |= bits;
        }
        if let (ReferenceKind::KeySet, Some(number)) = (entry.kind, entry.key) {
            let key = &mut keys[number as usize];
            *key = if request.first_halfword == 0xB213 {
                // RRB: the reference bit zero, nothing else changed.
                *key & 0xFB
            } else {
                // SSK: bits 0-4 from register R1 bits 24-28, bits 5 and 6 zero, bit 7 as found.
                let r1 = request.guest.general_registers[usize::from(request.first_halfword >> 4 & 15)];
                r1 as u8 & 0xF8 | *key & 0x01
            };
        }
    }
    keys
}
