//! Bytes that are lent to one side, with a margin on either end to see what is written outside.

const MARGIN: usize = 4_096;

/// What is lent may begin at any of so many places.
pub const STARTS: usize = 4_096;

const ZEROS: [u8; MARGIN] = [0; MARGIN];

pub struct Area {
    bytes: Vec<u8>,
    /// Bytes of either margin.
    margin: usize,
    /// Where what is lent begins.
    start: usize,
}

impl Area {
    /// All zero, with room to lend `most` bytes that begin at one of the `STARTS`.
    pub fn new(most: usize) -> Area {
        Area::with_margin(MARGIN, STARTS + most)
    }

    /// All zero, with this margin on either end of so many bytes.
    pub fn with_margin(margin: usize, bytes: usize) -> Area {
        Area { bytes: vec![0; margin + bytes + margin], margin, start: margin }
    }

    /// Let what is lent begin so many bytes after the margin.
    pub fn start_at(&mut self, start: usize) {
        self.start = self.margin + start;
    }

    pub fn start(&self) -> usize {
        self.start
    }

    /// The first `size` bytes from the start on.
    pub fn lent(&mut self, size: usize) -> &mut [u8] {
        &mut self.bytes[self.start..self.start + size]
    }

    pub fn byte(&self, place: usize) -> u8 {
        self.bytes[self.start + place]
    }

    pub fn put(&mut self, place: usize, value: u8) {
        self.bytes[self.start + place] = value;
    }

    /// Take away what stands at these places.
    pub fn take(&mut self, places: &[usize]) -> Vec<u8> {
        let values = places.iter().map(|&place| self.byte(place)).collect();
        places.iter().for_each(|&place| self.put(place, 0));
        values
    }

    /// Is what is lent the same, and what stands in the margins?
    pub fn is_same(&self, other: &Area, size: usize) -> bool {
        let around = self.start - self.margin..self.start + size + self.margin;
        self.bytes[around.clone()] == other.bytes[around]
    }

    pub fn has_same_margins(&self, other: &Area, size: usize) -> bool {
        let margin = self.margin;
        let is_same = |start| self.bytes[start..start + margin] == other.bytes[start..start + margin];
        is_same(self.start - margin) && is_same(self.start + size)
    }

    /// Everything, wherever what is lent begins.
    pub fn all(&self) -> &[u8] {
        &self.bytes
    }

    pub fn is_zero(&self) -> bool {
        self.bytes.chunks(MARGIN).all(|chunk| *chunk == ZEROS[..chunk.len()])
    }
}
