//! Document 02, R-5: every first halfword, by the library's table and by the second program, which has none.

use second::bench_calls::bench_call;
use second::{Call, Instruction};

use crate::sides::{self, Made};

/// 256 first bytes less the seven that are assisted with any second byte, and B213.
const NOT_ASSISTED: usize = 65_536 - 7 * 256 - 1;

#[test]
fn every_first_halfword() {
    let Call { image, request } = bench_call(Instruction::SetSystemMask, false, 65_536);
    let mut not_assisted = 0;
    for first_halfword in 0..=u16::MAX {
        let mut request = request;
        request.first_halfword = first_halfword;
        let [library, second]: [Made; 2] =
            [sides::library, sides::counted].map(|side| sides::make(side, &image, &request));
        let differences = sides::differences(&library, &second, first_halfword);
        assert!(differences.is_empty(), "{first_halfword:04X}: {differences:?}");
        not_assisted += usize::from(library.answer.ending == 13);
    }
    assert_eq!(not_assisted, NOT_ASSISTED);
}
