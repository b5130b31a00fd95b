//! A start or a writing call that differs, in full.

use super::draft::Draft;
use crate::fuzz::area::Area;
use crate::fuzz::difference;
use crate::written::Written;

#[derive(Clone, Copy)]
pub enum Act {
    Start,
    Write(Draft),
}

pub struct Differing {
    pub act: Act,
    /// What the buffers held.
    pub before: Vec<u8>,
    pub library: Written,
    pub second: Written,
}

impl Differing {
    /// All lines, with the buffers of this size as they are now.
    pub fn lines(&self, size: usize, library: &Area, second: &Area) -> Vec<String> {
        let mut lines = vec![format!("trail in a buffer of {size} bytes: {}", self.act.words())];
        lines.push("bytes of the buffer before; all others are zero:".into());
        lines.extend(difference::non_zero(&self.before));
        lines.push(format!("library:        {}", self.library.words()));
        lines.push(format!("second program: {}", self.second.words()));
        lines.extend(difference::place_lines("trail", size, library, second));
        lines
    }
}

impl Act {
    fn words(&self) -> String {
        match self {
            Act::Start => "it is started".into(),
            Act::Write(Draft { guest_number, given, lent, .. }) => format!(
                "the call is written down in {lent} bytes of it, with number {given}, for guest {guest_number}"
            ),
        }
    }
}
