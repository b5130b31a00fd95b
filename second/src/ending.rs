//! The numbered endings of document 01, with what ending 3 carries since document 02, R-4 and R-9.

use crate::guest::Guest;

/// What a program interruption reports. Codes 16 and 17 carry a logical address.
#[derive(Clone, Copy, Debug, PartialEq, Eq)]
pub enum Exception {
    PrivilegedOperation,
    Protection,
    Addressing,
    SegmentTranslation { logical_address: u32 },
    PageTranslation { logical_address: u32 },
    TranslationSpecification,
}

impl Exception {
    /// The interruption code.
    pub fn code(self) -> u32 {
        match self {
            Exception::PrivilegedOperation => 2,
            Exception::Protection => 4,
            Exception::Addressing => 5,
            Exception::SegmentTranslation { .. } => 16,
            Exception::PageTranslation { .. } => 17,
            Exception::TranslationSpecification => 18,
        }
    }
}

/// What ending 3 carries: for the first five instructions the step (document 01), for ISK, RRB and LRA the place, from
/// 1, among the control fields and the page's key block as tried (document 02, R-4, R-9).
#[derive(Clone, Copy, Debug, PartialEq, Eq)]
pub enum NotThere {
    Step(u8),
    Place(u8),
}

impl NotThere {
    pub fn number(self) -> u8 {
        match self {
            NotThere::Step(number) | NotThere::Place(number) => number,
        }
    }
}

/// How an attempt ends.
#[derive(Clone, Copy, Debug, PartialEq, Eq)]
pub enum Ending {
    Completed,
    Interruption(Exception),
    ExpandedAssist,
    NotInStorage(NotThere),
    PswBit12Or15Zero,
    StorageSize,
    KeyCount,
    OddInstructionAddress,
    OperationCode,
}

impl Ending {
    /// "Refuse" means interruption 2.
    pub const REFUSE: Ending = Ending::Interruption(Exception::PrivilegedOperation);

    /// "Expanded" means ending 2 if the expanded assist is installed and control register 6 bit 6 is one, else
    /// interruption 2 (document 02, R-3). Figure 3 of document 002 wants ones in bits 0 and 6 for this assist; step 1
    /// of the instructions that come here has found bit 0 one.
    pub fn expanded(installed: bool, guest: &Guest) -> Ending {
        if installed && guest.expanded_switched_on() {
            Ending::ExpandedAssist
        } else {
            Ending::REFUSE
        }
    }

    /// The number of the ending.
    pub fn number(self) -> u32 {
        match self {
            Ending::Completed => 0,
            Ending::Interruption(_) => 1,
            Ending::ExpandedAssist => 2,
            Ending::NotInStorage(_) => 3,
            Ending::PswBit12Or15Zero => 9,
            Ending::StorageSize => 10,
            Ending::KeyCount => 11,
            Ending::OddInstructionAddress => 12,
            Ending::OperationCode => 13,
        }
    }

    /// The interruption code (ending 1), the step or place (ending 3), else zero.
    pub fn code_or_step(self) -> u32 {
        match self {
            Ending::Interruption(exception) => exception.code(),
            Ending::NotInStorage(not_there) => u32::from(not_there.number()),
            _ => 0,
        }
    }

    /// The logical address that codes 16 and 17 carry; elsewhere that number is zero.
    pub fn logical_address(self) -> u32 {
        match self {
            Ending::Interruption(Exception::SegmentTranslation { logical_address })
            | Ending::Interruption(Exception::PageTranslation { logical_address }) => logical_address,
            _ => 0,
        }
    }

    /// The ending in words.
    pub fn words(self) -> String {
        match self {
            Ending::Completed => "completed".into(),
            Ending::Interruption(exception) => format!("interruption {}", exception_words(exception)),
            Ending::ExpandedAssist => "handed to the expanded assist".into(),
            Ending::NotInStorage(NotThere::Step(step)) => format!("not in storage, step {step}"),
            Ending::NotInStorage(NotThere::Place(place)) => format!("not in storage, place {place}"),
            Ending::PswBit12Or15Zero => "PSW bit 12 or 15 zero".into(),
            Ending::StorageSize => "storage size".into(),
            Ending::KeyCount => "number of keys".into(),
            Ending::OddInstructionAddress => "odd instruction address".into(),
            Ending::OperationCode => "operation code".into(),
        }
    }
}

fn exception_words(exception: Exception) -> String {
    let name = match exception {
        Exception::PrivilegedOperation => "privileged operation".into(),
        Exception::Protection => "protection".into(),
        Exception::Addressing => "addressing".into(),
        Exception::SegmentTranslation { logical_address } => {
            format!("segment translation at {logical_address:06X}")
        }
        Exception::PageTranslation { logical_address } => {
            format!("page translation at {logical_address:06X}")
        }
        Exception::TranslationSpecification => "translation specification".into(),
    };
    format!("{} ({name})", exception.code())
}

impl From<Exception> for Ending {
    fn from(exception: Exception) -> Ending {
        Ending::Interruption(exception)
    }
}

#[cfg(test)]
mod tests {
    use super::*;

    #[test]
    fn expanded_needs_the_assist_and_bit_6() {
        let with_register = |control_register_6: u32| Guest {
            psw_0_31: 0xFFFF_FFFF,
            psw_32_63: 0xFFFF_FFFF,
            general_registers: [0xFFFF_FFFF; 16],
            control_register_0: 0xFFFF_FFFF,
            control_register_1: 0xFFFF_FFFF,
            control_register_6,
        };
        for bit in 0..32 {
            let alone = with_register(0x8000_0000 >> bit);
            let all_others = with_register(!(0x8000_0000 >> bit));
            let [one, zero] = [alone, all_others].map(|guest| Ending::expanded(true, &guest));
            assert_eq!(one, if bit == 6 { Ending::ExpandedAssist } else { Ending::REFUSE });
            assert_eq!(zero, if bit == 6 { Ending::REFUSE } else { Ending::ExpandedAssist });
            assert_eq!([alone, all_others].map(|guest| Ending::expanded(false, &guest)), [Ending::REFUSE; 2]);
        }
    }
}
