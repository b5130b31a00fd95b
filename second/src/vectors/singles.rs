//! Single calls, in part chosen so that what is seldom reached is reached.

use std::collections::BTreeMap;

use crate::attempt::{Answer, Instruction};
use crate::call::Call;
use crate::generate::{generate_of_size, LARGEST, LARGEST_LARGE};
use crate::references::{Reference, ReferenceKind};
use crate::report::{point, translation_words, Point, TableWords};
use crate::translation::{segment_format_wrong, segment_invalid};

/// Calls among which the one with the most seldom ending is chosen.
const CANDIDATES: u64 = 32;

/// Trials for a call with an item that goes round.
const ROUND_TRIALS: u64 = 10_000;

/// Items that can go round from FFFFFF to 000000.
const ROUND_ITEMS: [RoundItem; 9] = [
    RoundItem::Micblok,
    RoundItem::VirtualRegister,
    RoundItem::VirtualRegisterOfLra,
    RoundItem::VirtualPsw,
    RoundItem::SwapWord(Instruction::SetStorageKey),
    RoundItem::SwapWord(Instruction::InsertStorageKey),
    RoundItem::SwapWord(Instruction::ResetReferenceBit),
    RoundItem::Operand,
    RoundItem::ProtectedOperand,
];

#[derive(Clone, Copy, Debug, PartialEq, Eq)]
enum RoundItem {
    /// MICVPSW at 000000, after MICRSEG and MICCREG at FFFFF8 and FFFFFC.
    Micblok,
    /// Of SSM or STCTL.
    VirtualRegister,
    VirtualRegisterOfLra,
    VirtualPsw,
    SwapWord(Instruction),
    /// Words of STCTL at FFFFFC and 000000.
    Operand,
    /// The same, refused by low-address protection (document 02, R-6).
    ProtectedOperand,
}

pub struct Singles {
    seed: u64,
    large: bool,
    made: u64,
    drawn: u64,
    reached: BTreeMap<Reached, u64>,
}

/// Where a call ended, and in which way.
type Reached = (Point, Way);

/// For an access of RRB the format. For a completed LRA the formats of its real and its virtual tables; for an entry
/// that it refuses what is wrong with it, or its page size. For a word of STCTL whether another has passed its test
/// before. For a mask that does not pass the mode of the virtual PSW, whether the expanded assist is installed, and
/// whether it is switched on.
#[derive(Clone, Copy, Debug, PartialEq, Eq, PartialOrd, Ord)]
enum Way {
    Only,
    Format(&'static str),
    Load(&'static str, &'static str),
    SegmentEntry { invalid: bool, wrong_format: bool },
    PageEntry { pages_of_2k: bool },
    Word { another_passed: bool },
    Mask { ec_mode: bool, installed: bool, switched_on: bool },
}

fn reached(call: &Call) -> Reached {
    let answer = call.make();
    (point(&call.request, &answer), way(call, &answer))
}

fn way(call: &Call, answer: &Answer) -> Way {
    use Instruction::*;
    let request = &call.request;
    match (Instruction::of_first_halfword(request.first_halfword), answer.at_step) {
        (Some(ResetReferenceBit), 4) => Way::Format(translation_words(request)),
        (Some(LoadRealAddress), step) => load_way(call, answer, step),
        (Some(StoreControl), 5) if answer.at_walk_step != 0 => {
            Way::Word { another_passed: another_word_passed(answer) }
        }
        (Some(SetSystemMask), 9) | (Some(StoreThenAnd | StoreThenOr), 4) => Way::Mask {
            ec_mode: virtual_ec_mode(call, answer),
            installed: request.expanded,
            switched_on: request.guest.expanded_switched_on(),
        },
        _ => Way::Only,
    }
}

/// Steps 9, 11, 18 and 20 are for entries of the real tables, step 23 for one of the virtual tables. The entry was
/// fetched last.
fn load_way(call: &Call, answer: &Answer, step: u8) -> Way {
    let (real, virtual_format) = TableWords::of(&call.image.storage(), &call.request).formats();
    let last = answer.references.last().and_then(|entry| entry.bytes.first());
    let entry = last.map_or(0, |&address| call.image.word(address));
    match step {
        _ if answer.ending.number() == 0 => Way::Load(real, virtual_format),
        9 | 18 => {
            Way::SegmentEntry { invalid: segment_invalid(entry), wrong_format: segment_format_wrong(entry) }
        }
        11 | 20 => Way::PageEntry { pages_of_2k: real.starts_with("2K") },
        23 => Way::PageEntry { pages_of_2k: virtual_format.starts_with("2K") },
        _ => Way::Only,
    }
}

/// Keys were consulted for the second halfword and each word that passed, and for the last one if its key protects it.
fn another_word_passed(answer: &Answer) -> bool {
    let keys = answer.references.iter().filter(|entry| entry.kind == ReferenceKind::KeyConsulted).count();
    keys > if answer.at_walk_step == 8 { 2 } else { 1 }
}

/// The virtual PSW was fetched last.
fn virtual_ec_mode(call: &Call, answer: &Answer) -> bool {
    answer.references.last().is_some_and(|entry| call.image.byte(entry.bytes[1]) & 0x08 != 0)
}

impl Singles {
    pub fn new(seed: u64, large: bool) -> Singles {
        Singles { seed, large, made: 0, drawn: 0, reached: BTreeMap::new() }
    }

    /// Two of three calls are chosen, the third is as it is drawn; in a large set every other one.
    pub fn next(&mut self, size: usize) -> Call {
        self.made += 1;
        let call = if self.large && self.made.is_multiple_of(2) {
            let item = ROUND_ITEMS[(self.made / 2) as usize % ROUND_ITEMS.len()];
            self.going_round(item)
        } else if !self.large && !self.made.is_multiple_of(3) {
            self.seldom(size)
        } else {
            self.draw(size)
        };
        *self.reached.entry(reached(&call)).or_default() += 1;
        call
    }

    fn draw(&mut self, size: usize) -> Call {
        self.drawn += 1;
        generate_of_size(self.seed, self.drawn, size, if self.large { LARGEST_LARGE } else { LARGEST })
    }

    fn seldom(&mut self, size: usize) -> Call {
        let mut best = self.draw(size);
        let mut least = self.times_reached(&best);
        for _ in 1..CANDIDATES {
            let call = self.draw(size);
            let times = self.times_reached(&call);
            if times < least {
                (best, least) = (call, times);
            }
        }
        best
    }

    fn times_reached(&self, call: &Call) -> u64 {
        self.reached.get(&reached(call)).copied().unwrap_or(0)
    }

    /// A call in 16 MiB with this item going round; the last one drawn if there is none.
    fn going_round(&mut self, item: RoundItem) -> Call {
        let mut call = self.draw(0x100_0000);
        for _ in 0..ROUND_TRIALS {
            if item.may_be_in(&call) && round_items(&call).contains(&item) {
                break;
            }
            call = self.draw(0x100_0000);
        }
        call
    }
}

impl RoundItem {
    /// Whether it is worth while to make the call.
    fn may_be_in(self, call: &Call) -> bool {
        use Instruction::*;
        let instructions: &[Instruction] = match &self {
            RoundItem::Micblok => return call.request.guest.micblok_address() == 0xFF_FFF8,
            RoundItem::VirtualRegister => &[SetSystemMask, StoreControl],
            RoundItem::VirtualRegisterOfLra => &[LoadRealAddress],
            RoundItem::VirtualPsw => &[SetSystemMask, StoreThenAnd, StoreThenOr, InsertStorageKey],
            RoundItem::SwapWord(instruction) => std::slice::from_ref(instruction),
            RoundItem::Operand => &[StoreControl],
            RoundItem::ProtectedOperand if call.request.guest.low_address_protection() => &[StoreControl],
            RoundItem::ProtectedOperand => &[],
        };
        Instruction::of_first_halfword(call.request.first_halfword)
            .is_some_and(|one| instructions.contains(&one))
    }
}

/// The items of a completed attempt that go round, or the operand of one that is refused by low-address protection.
fn round_items(call: &Call) -> Vec<RoundItem> {
    let (micblok, answer) = (call.request.guest.micblok_address(), call.make());
    let mut items = Vec::new();
    if low_after_another_word(&answer) {
        items.push(RoundItem::ProtectedOperand);
    }
    if answer.ending.number() != 0 {
        return items;
    }
    let first_bytes = |kind: ReferenceKind| {
        answer.references.iter().filter(move |entry| entry.kind == kind).map(|entry| entry.bytes[0])
    };
    if micblok == 0xFF_FFF8 && first_bytes(ReferenceKind::ControlField).any(|byte| byte == 0) {
        items.push(RoundItem::Micblok);
    }
    let goes_round = |entry: &&Reference| entry.bytes.windows(2).any(|two| two == [0xFF_FFFF, 0]);
    let instruction = Instruction::of_first_halfword(call.request.first_halfword);
    for entry in answer.references.iter().filter(goes_round) {
        match (entry.kind, entry.bytes.len()) {
            (ReferenceKind::VirtualRegister, _) if instruction == Some(Instruction::LoadRealAddress) => {
                items.push(RoundItem::VirtualRegisterOfLra);
            }
            (ReferenceKind::VirtualRegister, _) => items.push(RoundItem::VirtualRegister),
            (ReferenceKind::ControlField, 2) => items.push(RoundItem::VirtualPsw),
            // MICBLOK's words and table entries are on their boundaries.
            (ReferenceKind::ControlField, 4) => items.extend(instruction.map(RoundItem::SwapWord)),
            _ => {}
        }
    }
    let stored: Vec<u32> = first_bytes(ReferenceKind::Store).collect();
    if stored.windows(2).any(|two| two == [0xFF_FFFC, 0]) {
        items.push(RoundItem::Operand);
    }
    items
}

/// Refused by low-address protection after a word that passed its test: words rise to a low address only by going
/// round.
fn low_after_another_word(answer: &Answer) -> bool {
    let last = answer.references.last().map(|entry| entry.kind);
    answer.at_walk_step == 9 && last == Some(ReferenceKind::KeyConsulted)
}
