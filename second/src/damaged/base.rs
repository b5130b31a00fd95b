//! The small file of calls that is damaged.

use crate::call::StorageImage;
use crate::setup::Setup;
use crate::vectors::text::CallFile;

/// Three calls, from the SSK edges, in 17 lines (only bytes that the first consults are given):
///
/// ```text
///  1 # SSK R1 3F, ...       7 q 000000 00000400     13 s 00000803 00000003
///  2 s 00004000 00000008    8 r ...                 14 b 000802 5a
///  3 w 000400 00000800      9 a 0834 0 cccccccc     15 k 000002 a5
///  4 w 000808 f0000c10     10 r ...                 16 a 0834 0 cccccccc
///  5 w 000c0c 00000d00     11 a 0834 0 cccccccc     17 e 00000003 cccccccc
///  6 w 000c14 00000010     12 # SSK storage ...
/// ```
pub struct Base {
    /// Each with its line feed.
    pub lines: Vec<String>,
    /// The line printed for each call.
    pub answers: Vec<String>,
}

impl Base {
    pub fn new() -> Base {
        let first = Setup::ssk().key(2, 0x04);
        let mut second = first.clone();
        second.guest.general_registers[3] = 0x0000_00C6;
        let mut file = CallFile::default();
        file.comment("SSK R1 3F, swap word 0, old key 04, valid page, bit 20 zero; then R1 C6");
        file.storage(&consulted(&first));
        file.call(&first.request());
        file.call(&second.request());
        file.comment("SSK storage of 2,051 bytes");
        file.storage(&odd_storage());
        file.call(&second.request());
        file.end();
        let is_answer = |line: &&str| !line.starts_with('#') && !line.ends_with("calls");
        Base {
            lines: file.stdin.split_inclusive('\n').map(String::from).collect(),
            answers: file.stdout.lines().filter(is_answer).map(String::from).collect(),
        }
    }
}

/// The image of a set-up without the bytes that its call does not consult.
fn consulted(setup: &Setup) -> StorageImage {
    let named: Vec<u32> = setup.call().make().references.into_iter().flat_map(|entry| entry.bytes).collect();
    let mut image = setup.image.clone();
    image.bytes.retain(|address, _| named.contains(address));
    image
}

/// Ending 10; the last byte and the last key are in no whole group of four.
fn odd_storage() -> StorageImage {
    let mut image = StorageImage { storage_size: 2_051, key_count: 3, ..StorageImage::default() };
    image.put(0x802, &[0x5A]);
    image.put_key(2, 0xA5);
    image
}

#[cfg(test)]
mod tests {
    use super::*;

    #[test]
    fn lines_are_where_the_tables_have_them() {
        let base = Base::new();
        let kinds: String = base.lines.iter().filter_map(|line| line.chars().next()).collect();
        assert_eq!(kinds, "#swwwwqrara#sbkae");
        let lengths = [80, 20, 18, 18, 18, 18, 18, 191, 18, 191, 18, 80, 20, 12, 12, 18, 20];
        assert_eq!(base.lines.iter().map(String::len).collect::<Vec<_>>(), lengths);
        assert_eq!(base.lines[6], "q 000000 00000400\n");
        assert_eq!(base.lines[13], "b 000802 5a\n");
        // Two completions (5 fields, key consulted and set, store), and storage that is no multiple of 2,048.
        assert!(base.answers[0].starts_with("1 0 0 8 000000 001002 "));
        assert!(base.answers[1].starts_with("2 0 0 8 000000 001002 "));
        assert!(base.answers[2].starts_with("3 10 0 0 000000 001000 "));
    }
}
