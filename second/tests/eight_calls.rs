//! What `second trail` prints, worked out by hand: the calls from document 01, the trail from document 02, R-1.

/// Counts. Call 1: MICCREG, register 0, second halfword (2), operand (2), MICVPSW, virtual PSW, store. Call 2:
/// MICCREG, second halfword (2), four registers, tests and stores. Call 3: MICCREG, second halfword (4), register
/// 5, segment entry, page entry. Call 4: as call 1 without the store; the operand is AE since call 2, the expanded
/// assist is installed and bit 6 of control register 6 is one (document 02, R-3). Call 5: five fields. Call 6: two keys
/// and the store more.
const CALLS: &str = "\
start: refusal 0, held 0, trailer 00000000 00000000 00000000 00000001
call 1, guest 7, 8000: ending 0, code 0, count 9, next 001004, translation 000000; \
refusal 0, held 1, trailer 00000080 00000001 00000000 00000001
call 2, guest 7, B6E1: ending 0, code 0, count 15, next 001004, translation 000000; \
refusal 0, held 2, trailer 00000100 00000002 00000000 00000001
call 3, guest 9, B655: ending 1, code 17, count 8, next 001000, translation 002000; \
refusal 0, held 3, trailer 00000180 00000003 00000000 00000001
call 4, guest 9, 8000: ending 2, code 0, count 8, next 001000, translation 000000; \
refusal 0, held 4, trailer 00000200 00000004 00000000 00000001
call 5, guest 7, 0834: ending 3, code 11, count 5, next 001000, translation 000000; \
refusal 0, held 5, trailer 00000280 00000005 00000000 00000001
call 6, guest 7, 0834: ending 0, code 0, count 8, next 001002, translation 000000; \
refusal 0, held 5, trailer 00000280 00000005 00000001 00000001
call 7, guest 9, AC07: ending 12, code 0, count 0, next 001001, translation 000000; \
refusal 0, held 5, trailer 00000280 00000005 00000002 00000001
call 8, guest 7, 0700: ending 13, code 0, count 0, next 001000, translation 000000; \
refusal 0, held 5, trailer 00000280 00000005 00000003 00000001
";

/// `wrapped`: 128 times 33554432 is 2^32, not zero. The trailer that this number points at is not in the buffer, so the
/// call is refused, hands back the number given and writes nothing. `more room`: the first call is turned away; at the
/// second the record goes in, and the new trailer keeps the number turned away, one.
const REFUSALS_AND_EDGES: &str = "\
given 4: refusal 20, held 4
given 6: refusal 20, held 6
given 4294967295: refusal 20, held 4294967295
in 15 bytes: refusal 21, held 5
start in 15 bytes: refusal 21, held 0
16 bytes: refusal 0, held 0, trailer 00000000 00000000 00000001 00000001
143 bytes: refusal 0, held 0, trailer 00000000 00000000 00000001 00000001
144 bytes: refusal 0, held 1, trailer 00000080 00000001 00000000 00000001
nearly: refusal 0, held 0, trailer 00000000 00000000 FFFFFFFF 00000001
ceiling: refusal 0, held 0, trailer 00000000 00000000 FFFFFFFF 00000001
other version: refusal 20, held 0, trailer 00000000 00000000 00000000 00000002
other distance: refusal 20, held 0, trailer 00000080 00000000 00000000 00000001
other number: refusal 20, held 0, trailer 00000000 00000001 00000000 00000001
wrapped: refusal 20, held 33554432, trailer 00000000 02000000 00000000 00000001
more room: refusal 0, held 1, trailer 00000080 00000001 00000001 00000001
";

/// Five records of four lines, the trailer, and 24 bytes that stay.
const BUFFER: &str = "\
000000: 00000000 00000007 80000000 00000009 00001004 00000000 000900CD AB001000
000020: C0DE0000 C0DE0011 5A001FF0 ABCDEF3F 5A023000 C0DE0055 C0DE0066 C0DE0077
000040: C0DE0088 C0DE0099 C0DE00AA C0DE00BB C0DE00CC C0DE00DD C0DE00EE C0DE00FF
000060: 00800000 FF003000 80000400 00000000 00000000 00000000 00000000 00000000
000080: 00000001 00000007 B6E10000 0000000F 00001004 00000000 000900CD AB001000
0000A0: C0DE0000 C0DE0011 5A001FF0 ABCDEF3F 5A023000 C0DE0055 C0DE0066 C0DE0077
0000C0: C0DE0088 C0DE0099 C0DE00AA C0DE00BB C0DE00CC C0DE00DD C0DE00EE C0DE00FF
0000E0: 00800000 FF003000 80000400 00000000 00000000 00000000 00000000 00000000
000100: 00000002 00000009 B6550001 00110008 00001000 00002000 040900CD AB001000
000120: C0DE0000 C0DE0011 5A001FF0 ABCDEF3F 5A023000 C0DE0055 C0DE0066 C0DE0077
000140: C0DE0088 C0DE0099 C0DE00AA C0DE00BB C0DE00CC C0DE00DD C0DE00EE C0DE00FF
000160: 00800000 FF003000 80000400 00000000 00000000 00000000 00000000 00000000
000180: 00000003 00000009 80000102 00000008 00001000 00000000 000900CD AB001000
0001A0: C0DE0000 C0DE0011 5A001FF0 ABCDEF3F 5A023000 C0DE0055 C0DE0066 C0DE0077
0001C0: C0DE0088 C0DE0099 C0DE00AA C0DE00BB C0DE00CC C0DE00DD C0DE00EE C0DE00FF
0001E0: 00800000 FF003000 82000400 00000000 00000000 00000000 00000000 00000000
000200: 00000004 00000007 08340003 000B0005 00001000 00000000 000900CD AB001000
000220: C0DE0000 C0DE0011 5A001FF0 ABCDEF3F 5A022000 C0DE0055 C0DE0066 C0DE0077
000240: C0DE0088 C0DE0099 C0DE00AA C0DE00BB C0DE00CC C0DE00DD C0DE00EE C0DE00FF
000260: 00800000 FF003000 80000400 00000000 00000000 00000000 00000000 00000000
000280: 00000280 00000005 00000003 00000001 EEEEEEEE EEEEEEEE EEEEEEEE EEEEEEEE
0002A0: EEEEEEEE EEEEEEEE
";

#[test]
fn every_line() {
    let expected = [CALLS, REFUSALS_AND_EDGES, BUFFER].concat();
    let text = second::eight_calls::text();
    assert!(text.lines().eq(expected.lines()), "{text}");
    assert_eq!(expected.lines().count(), 9 + 15 + 22);
}

/// Five records and the trailer are 656 bytes; the 24 bytes after them are cut off.
#[test]
fn trail_file_is_cut_after_its_trailer() {
    let words = BUFFER.lines().flat_map(|line| line.split(' ').skip(1));
    let buffer: Vec<u8> =
        words.flat_map(|word| u32::from_str_radix(word, 16).unwrap().to_be_bytes()).collect();
    assert_eq!(buffer.len(), 680);
    let file = second::eight_calls::trail_file();
    assert_eq!(file.len(), 656);
    assert_eq!(file, buffer[..656]);
}

/// What the calls leave: SSM's 07, STCTL's registers 14, 15, 0 and 1, SSK's key and swap word (page 3). SSK finds the
/// reference bit of block 2, which the fetches of second halfwords have recorded. Block 0 has MICBLOK, ECBLOK and
/// virtual PSW (stored by SSM), 1 the tables of SSK, 4 the operand (read by SSM, stored by STCTL), 6 the DAT tables.
#[test]
fn what_the_calls_leave() {
    let image = second::eight_calls::image();
    let (mut storage, mut keys) = (image.storage(), image.key_bytes());
    for call in second::eight_calls::calls() {
        call.request.make(&mut storage, &mut keys);
    }
    let mut expected = image.clone();
    expected.put_word(0x600, 0x0708_0000);
    for (address, word) in
        [(0x2000, 0xAEBE_CEDE), (0x2004, 0xAFBF_CFDF), (0x2008, 0xA0B0_C0D0), (0x200C, 0xA1B1_C1D1)]
    {
        expected.put_word(address, word);
    }
    expected.put_word(0xD18, 0x0800_3E00);
    for (number, key) in [(0, 0x06), (1, 0x06), (2, 0x38), (4, 0x06), (6, 0x04)] {
        expected.put_key(number, key);
    }
    assert!(storage == expected.storage() && keys == expected.key_bytes());
}
