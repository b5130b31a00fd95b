//! First halfwords beside those of ISK, RRB and LRA: 13, or what comes before it (12); 9 comes after it.

use std::collections::BTreeSet;

use second::fixed::other_codes;

#[test]
fn ending_13_covers_all_others() {
    let lists = other_codes();
    let mut first_halfwords = BTreeSet::new();
    for list in &lists {
        let call = &list.calls[0];
        let assisted = [0xB213, 0x0934, 0xB130].contains(&call.request.first_halfword);
        let words = call.case.strip_prefix("code: ").expect("a code");
        assert_eq!(words[..4], format!("{:04X}", call.request.first_halfword));
        let expected = match (&words[4..], assisted) {
            (", odd address", _) => 12,
            (", PSW bit 15", true) => 9,
            ("", true) => panic!("only first halfwords that get 13"),
            _ => 13,
        };
        let (mut storage, mut keys) = (list.image.storage(), list.image.key_bytes());
        let answer = call.request.make(&mut storage, &mut keys);
        assert_eq!((answer.ending.number(), answer.count()), (expected, 0), "{words}");
        assert_eq!((answer.guest, storage), (call.request.guest, list.image.storage()));
        assert_eq!(keys, list.image.key_bytes());
        first_halfwords.insert(call.request.first_halfword);
    }
    // Every second byte that differs from 13 in one bit, every first byte that so differs from 08, 09 or B1.
    for bit in 0..8 {
        assert!(first_halfwords.contains(&(0xB130 ^ 0x100 << bit)));
        assert!(first_halfwords.contains(&(0xB213 ^ 1 << bit)));
        for code in [0x0834, 0x0934] {
            let other = code ^ 0x100 << bit;
            assert!([0x0834, 0x0934].contains(&other) || first_halfwords.contains(&other));
        }
    }
    assert!(first_halfwords.contains(&0x0734) && first_halfwords.contains(&0x0A34));
}
