//! Segment and page tables for the pages that a drafted call uses: logical pages, which DAT translates, and for LRA
//! virtual pages, which the real tables of MICRSEG translate.

use super::draft::Draft;
use super::item::{Items, Role};
use super::random::Random;
use crate::address::{add, subtract};

/// Sizes as shifts: 11 or 12, 16 or 20.
#[derive(Clone, Copy, Debug)]
pub struct Shifts {
    pub page: u32,
    pub segment: u32,
}

impl Shifts {
    pub fn draw(random: &mut Random) -> Shifts {
        Shifts { page: random.pick(&[11, 12]), segment: random.pick(&[16, 20]) }
    }

    /// Control register 0 bits 8-12 for this format.
    pub fn control_bits(self) -> u32 {
        let page_bits = if self.page == 12 { 0b10000 } else { 0b01000 };
        page_bits | if self.segment == 20 { 0b00010 } else { 0 }
    }

    pub fn segment_index(self, logical: u32) -> u32 {
        logical >> self.segment
    }

    pub fn page_index(self, logical: u32) -> u32 {
        (logical >> self.page) & ((1 << (self.segment - self.page)) - 1)
    }

    pub fn leftmost_four(self, logical: u32) -> u32 {
        (logical >> (self.segment - 4)) & 15
    }
}

/// Pages with their frames.
#[derive(Clone, Debug)]
pub struct Mapping {
    pub shifts: Shifts,
    pages: Vec<(u32, u32)>,
}

/// The entries of a page that has been put in tables.
#[derive(Clone, Copy, Debug)]
pub struct Entries {
    page: u32,
    pub segment_entry: u32,
    pub page_entry: u32,
}

/// Tables that have been put in storage.
pub struct Tables {
    pub origin: u32,
    /// Length as the first byte of control register 1 or of MICRSEG has it.
    pub length: u32,
    /// For each page; the pages of a segment one after the other.
    entries: Vec<Entries>,
}

impl Mapping {
    /// Nothing mapped yet, in a random format.
    pub fn new(random: &mut Random) -> Mapping {
        Mapping { shifts: Shifts::draw(random), pages: Vec::new() }
    }

    /// The same for DAT: the format is put in control register 0.
    pub fn for_dat(draft: &mut Draft) -> Mapping {
        let mapping = Mapping::new(&mut draft.random);
        draft.guest.control_register_0 =
            (draft.guest.control_register_0 & 0xFF07_FFFF) | mapping.shifts.control_bits() << 19;
        mapping
    }

    pub fn page_size(&self) -> u32 {
        1 << self.shifts.page
    }

    /// A logical address for an item at a real address, by a page mapped already or a new one.
    pub fn logical_of_real(&mut self, draft: &mut Draft, real: u32) -> u32 {
        let frame = real >> self.shifts.page;
        for _ in 0..40 {
            let page = self.candidate_page(draft);
            if self.add_page(page, frame) {
                return (page << self.shifts.page) | (real % self.page_size());
            }
        }
        real
    }

    /// A page number: near one mapped already, at an end of the logical storage, or anywhere.
    pub fn candidate_page(&mut self, draft: &mut Draft) -> u32 {
        let pages = 1 << (24 - self.shifts.page);
        let pages_of_segment = 1 << (self.shifts.segment - self.shifts.page);
        let first = self.pages.first().map(|&(page, _)| page);
        let page = match (first, draft.random.below(20)) {
            (Some(page), 0..=1) => page,
            (Some(page), 2..=6) => page.wrapping_add(1 + draft.random.below(4)),
            (Some(page), 7..=9) => page - page % pages_of_segment + draft.random.below(pages_of_segment),
            (Some(page), 10..=14) => page.wrapping_add(pages_of_segment * (1 + draft.random.below(3))),
            (Some(page), 15) => page.wrapping_add(pages / 16),
            (_, 16) => draft.random.pick(&[0, 1, pages - 1, pages - 2]),
            _ => draft.random.below(pages),
        };
        page % pages
    }

    /// Map a page; false if it is in another frame already.
    pub fn add_page(&mut self, page: u32, frame: u32) -> bool {
        if let Some(&(_, known)) = self.pages.iter().find(|&&(one, _)| one == page) {
            return known == frame;
        }
        self.pages.push((page, frame));
        true
    }

    pub fn frame_of(&self, page: u32) -> Option<u32> {
        self.pages.iter().find(|&&(one, _)| one == page).map(|&(_, frame)| frame)
    }

    /// The real address of a logical one whose page is mapped.
    pub fn real_of(&self, logical: u32) -> u32 {
        let frame = self.frame_of(logical >> self.shifts.page).unwrap_or(0);
        (frame << self.shifts.page) | (logical % self.page_size())
    }

    /// Map the pages of these items, a new page in any frame; false, and nothing is mapped, if an item is then not
    /// where items may be stored.
    pub fn map_items(&mut self, draft: &mut Draft, start: u32, items: Items) -> bool {
        let mut trial = self.clone();
        let fits = items.addresses(start).all(|logical| {
            let page = logical >> self.shifts.page;
            if trial.frame_of(page).is_none() {
                let frame = draft.random.below(draft.size().div_ceil(self.page_size()));
                trial.add_page(page, frame);
            }
            draft.contains_stored(trial.real_of(logical), items.length)
        });
        if fits {
            *self = trial;
        }
        fits
    }

    /// For DAT: put the segment table and the page tables in storage, and control register 1.
    pub fn put_tables(&self, draft: &mut Draft) {
        let tables = self.put_entries(draft);
        let other_bits = draft.random.below(64);
        draft.guest.control_register_1 = tables.length << 24 | tables.origin | other_bits;
        let mut noted = None;
        for entries in tables.entries {
            if noted.replace(entries.segment_entry) != Some(entries.segment_entry) {
                draft.note(Role::SegmentEntry, entries.segment_entry);
            }
            draft.note(Role::PageEntry, entries.page_entry);
        }
    }

    /// Put the segment table and the page tables in storage.
    pub fn put_entries(&self, draft: &mut Draft) -> Tables {
        let mut segments: Vec<u32> = self.pages.iter().map(|&(page, _)| self.segment_of_page(page)).collect();
        segments.sort_unstable();
        segments.dedup();
        let origin = table_origin(draft, &segments, 4, 64);
        let highest = self.pages.iter().map(|&(page, _)| page << self.shifts.page >> 20).max().unwrap_or(0);
        let length = highest + draft.random.pick(&[0, 0, 1, 200]);
        let mut entries = Vec::new();
        for segment in segments {
            entries.extend(self.put_page_table(draft, origin, segment));
        }
        Tables { origin, length, entries }
    }

    fn put_page_table(&self, draft: &mut Draft, segment_table: u32, segment: u32) -> Vec<Entries> {
        let shifts = self.shifts;
        let pages: Vec<(u32, u32)> =
            self.pages.iter().copied().filter(|&(page, _)| self.segment_of_page(page) == segment).collect();
        let indexes: Vec<u32> =
            pages.iter().map(|&(page, _)| shifts.page_index(page << shifts.page)).collect();
        let origin = table_origin(draft, &indexes, 2, 8);
        let highest = pages.iter().map(|&(page, _)| shifts.leftmost_four(page << shifts.page)).max();
        let length = (highest.unwrap_or(0) + draft.random.pick(&[0, 0, 1, 15])).min(15);
        let segment_entry = add(segment_table, 4 * segment);
        let other_bits = draft.random.pick(&[0, 2, 4, 6]);
        draft.image.put_word(segment_entry, length << 28 | origin | other_bits);
        let put_page = |((page, frame), index): ((u32, u32), u32)| {
            let page_entry = add(origin, 2 * index);
            let entry = frame << (shifts.page - 8) | draft.random.below(2);
            draft.image.put_halfword(page_entry, entry as u16);
            Entries { page, segment_entry, page_entry }
        };
        pages.into_iter().zip(indexes).map(put_page).collect()
    }

    fn segment_of_page(&self, page: u32) -> u32 {
        page >> (self.shifts.segment - self.shifts.page)
    }
}

impl Tables {
    /// The entries of the page of this address, if it is mapped.
    pub fn entries_of(&self, mapping: &Mapping, logical: u32) -> Option<Entries> {
        self.entries.iter().copied().find(|entries| entries.page == logical >> mapping.shifts.page)
    }
}

/// An origin, on its boundary, that has all these entries in storage where nothing else is, if one is found.
fn table_origin(draft: &mut Draft, indexes: &[u32], width: u32, boundary: u32) -> u32 {
    let Some(&first) = indexes.first() else {
        return 0;
    };
    let mut origin = 0;
    for _ in 0..200 {
        let place = draft.candidate(width, boundary, width * first % boundary);
        origin = subtract(place, width * first);
        if indexes.iter().all(|&index| draft.free(add(origin, width * index), width)) {
            break;
        }
    }
    for &index in indexes {
        draft.take(add(origin, width * index), width);
    }
    origin
}
