//! Figure 6, row by row. ISK 3,4 of page 3 in frame 001: R1 is ABCDEF3F, of which bits 0-23 stay. Counts: five
//! fields, the key, MICVPSW, virtual PSW: 8; of an invalid page 7.

use crate::expected::*;

/// What bits 24-31 of R1 become for bits 0 to 7 of the virtual key alone, the real key being 00.
const EC_VIRTUAL: [u8; 8] = [0x80, 0x40, 0x20, 0x10, 0x08, 0x04, 0x02, 0x00];
const BC_VIRTUAL: [u8; 8] = [0x80, 0x40, 0x20, 0x10, 0x08, 0x00, 0x00, 0x00];

/// The same for bits 0 to 7 of the real key alone, the virtual key being 00. MICRSEG and the tables are in blocks of
/// their own, so that nothing is recorded in the page's.
const EC_REAL: [u8; 8] = [0x00, 0x00, 0x00, 0x00, 0x00, 0x04, 0x02, 0x00];
const BC_REAL: [u8; 8] = [0x00; 8];

/// The page's key, by the case; all other keys have the bits that it has not, so that blocks 0 and 1, which are read,
/// get the reference bit exactly if the page's key has it.
fn keys(real_key: u8) -> Vec<Change> {
    if real_key & 0x04 == 0 {
        vec![]
    } else {
        vec![(0, !real_key, !real_key | 0x04), (1, !real_key, !real_key | 0x04)]
    }
}

/// Cases live as long as the tests do.
fn expected(case: String, count: usize, real_key: u8, byte: u8) -> Expected {
    let name = ("ISK", &*case.leak());
    let expected = expect(name, COMPLETED, count, &[], &keys(real_key), 0x1002);
    expected.register(3, 0xABCD_EF00 | u32::from(byte))
}

pub fn figure_6() -> Vec<Expected> {
    let mut list = Vec::new();
    for (mode, virtual_bits, real_bits) in [("EC", EC_VIRTUAL, EC_REAL), ("BC", BC_VIRTUAL, BC_REAL)] {
        for (page, count) in [("page valid", 8), ("page invalid", 7)] {
            for bit_20 in ["zero", "one"] {
                let row = format!("figure 6: {mode}, {page}, bit 20 {bit_20}");
                for (bit, byte) in virtual_bits.into_iter().enumerate() {
                    list.push(expected(format!("{row}, virtual key bit {bit} alone"), count, 0x00, byte));
                }
                if page == "page invalid" {
                    list.push(expected(format!("{row}, real key FF"), count, 0xFF, 0x00));
                    continue;
                }
                for (bit, byte) in real_bits.into_iter().enumerate() {
                    let key = [0x80, 0x40, 0x20, 0x10, 0x08, 0x04, 0x02, 0x01][bit];
                    list.push(expected(format!("{row}, real key bit {bit} alone"), count, key, byte));
                }
            }
        }
    }
    list
}
