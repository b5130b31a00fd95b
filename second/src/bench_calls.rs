//! Calls for a benchmark: each completes, and completes again and again on what it left.
//!
//! The set-ups of `setup` have all their places in the first pages; here they are spread over the storage.

use crate::attempt::Instruction;
use crate::call::{Call, Request, StorageImage};
use crate::guest::Guest;
use crate::setup::{virtual_register, PSW_DAT, PSW_EC_PROBLEM, VIRTUAL_EC};

/// One of sixteen pages, numbered from 0 and spread evenly from the first page of storage to the last, and an
/// offset in it. Pages and offsets differ, so that no cache or TLB has them all in one set.
type Place = (u32, u32);

const MICBLOK: Place = (15, 0x5A8);
const ECBLOK: Place = (9, 0x2C0);
const VIRTUAL_PSW: Place = (11, 0x7B0);
const INSTRUCTION: Place = (2, 0x344);
const OPERAND: Place = (14, 0xA80);
const SEGMENT_TABLE: Place = (5, 0x040);
const INSTRUCTION_PAGE_TABLE: Place = (12, 0x918);
const OPERAND_PAGE_TABLE: Place = (7, 0xB20);

/// Tables of SSK, ISK and RRB, the first two of LRA too, and the frame whose key they set or read. The word before the
/// page table is the swap-table address.
const REAL_SEGMENT_TABLE: Place = (6, 0x400);
const REAL_PAGE_TABLE: Place = (13, 0xD08);
const SWAP_TABLE: Place = (4, 0xE20);
const KEYED_FRAME: Place = (10, 0x000);

/// LRA: a second page table beside these, and where the virtual tables are in storage.
const SECOND_REAL_PAGE_TABLE: Place = (1, 0x6F8);
const VIRTUAL_SEGMENT_TABLE: Place = (3, 0xA40);
const VIRTUAL_PAGE_TABLE: Place = (8, 0x358);

/// Logical pages of instruction and operand with DAT on.
const INSTRUCTION_PAGE: u32 = 0x12_3000;
const OPERAND_PAGE: u32 = 0x7A_5000;

/// The address that they name: segment 0A, page 6, second block of its frame.
const KEYED_ADDRESS: u32 = 0x0A_6830;

/// The address that LRA loads (segment 5D, page 7), its index, and the virtual addresses of its tables.
const LOADED_ADDRESS: u32 = 0x5D_7E38;
const INDEX: u32 = 0x12_3450;
const VIRTUAL_SEGMENT_TABLE_ADDRESS: u32 = 0x1B_4A40;
const VIRTUAL_PAGE_TABLE_ADDRESS: u32 = 0x2C_9358;

/// The second halfword: base register 2, displacement 018.
const SECOND_HALFWORD: u16 = 0x2018;
const DISPLACEMENT: u32 = 0x018;

/// PSW key 3, and the storage key with access bits 3 and fetch protection.
const PSW_KEY: u32 = 0x0030_0000;
const STORAGE_KEY: u8 = 0x38;

/// A call that completes, with DAT (4K pages, 64K segments) off or on. What the first call leaves in storage and
/// keys, every further call with the same record leaves as it is. `storage_size` is a multiple of 64 KiB, and
/// at most 16 MiB.
pub fn bench_call(instruction: Instruction, dat: bool, storage_size: usize) -> Call {
    let mut draft = Draft::new(instruction, storage_size);
    draft.put_control_blocks();
    draft.put_instruction_and_operand(dat);
    match instruction {
        Instruction::SetStorageKey | Instruction::InsertStorageKey => draft.put_real_tables(),
        Instruction::ResetReferenceBit => {
            draft.put_real_tables();
            draft.guest.general_registers[2] = 0x5A00_0000 | (KEYED_ADDRESS - DISPLACEMENT);
        }
        Instruction::LoadRealAddress => draft.put_virtual_tables(),
        _ => {}
    }
    Call {
        image: draft.image,
        request: Request { guest: draft.guest, first_halfword: draft.first_halfword, expanded: true },
    }
}

struct Draft {
    image: StorageImage,
    guest: Guest,
    first_halfword: u16,
    /// First byte of the virtual PSW, and what is at the operand.
    old_mask: u8,
    operand: u8,
}

impl Draft {
    fn new(instruction: Instruction, storage_size: usize) -> Draft {
        // SSM 04 to 07; registers 0 to 15; 04 AND FC; 07 OR 03; registers 3 and 4 (SSK, ISK, LRA); RRB's own.
        let (second_byte, old_mask, operand) = match instruction {
            Instruction::SetSystemMask => (0x00, 0x04, 0x07),
            Instruction::StoreControl => (0x0F, 0x00, 0x00),
            Instruction::StoreThenAnd => (0xFC, 0x04, 0x00),
            Instruction::StoreThenOr => (0x03, 0x07, 0x00),
            Instruction::SetStorageKey => (0x34, 0x00, 0x00),
            Instruction::InsertStorageKey => (0x34, 0x00, 0x00),
            Instruction::ResetReferenceBit => (0x13, 0x00, 0x00),
            Instruction::LoadRealAddress => (0x34, 0x00, 0x00),
        };
        let guest = Guest {
            psw_0_31: PSW_EC_PROBLEM | PSW_KEY,
            psw_32_63: 0,
            general_registers: [0; 16],
            control_register_0: 0,
            control_register_1: 0,
            control_register_6: 0,
        };
        Draft {
            image: StorageImage::new(storage_size),
            guest,
            first_halfword: instruction.first_halfword(second_byte),
            old_mask,
            operand,
        }
    }

    fn address(&self, (page, offset): Place) -> u32 {
        let pages_apart = (self.image.storage_size as u32 / 0x1000 - 1) / 15;
        page * pages_apart * 0x1000 + offset
    }

    /// MICBLOK, ECBLOK and virtual PSW (EC mode, nothing pending).
    fn put_control_blocks(&mut self) {
        let (micblok, ecblok) = (self.address(MICBLOK), self.address(ECBLOK));
        let virtual_psw = self.address(VIRTUAL_PSW);
        self.guest.control_register_6 = 0x8000_0000 | micblok;
        self.image.put_word(micblok + 4, ecblok);
        self.image.put_word(micblok + 8, virtual_psw);
        for number in 0..16 {
            self.image.put_word(ecblok + 4 * number, virtual_register(number));
        }
        self.image.put(virtual_psw, &[self.old_mask, VIRTUAL_EC]);
    }

    fn put_instruction_and_operand(&mut self, dat: bool) {
        let (instruction, operand) = (self.address(INSTRUCTION), self.address(OPERAND));
        self.image.put_halfword(instruction, self.first_halfword);
        self.image.put_halfword(instruction + 2, SECOND_HALFWORD);
        self.image.put(operand, &[self.operand]);
        for real in [instruction, operand] {
            self.image.put_key(real / 2048, STORAGE_KEY);
        }
        let (instruction, operand) =
            if dat { self.turn_on_dat(instruction, operand) } else { (instruction, operand) };
        self.guest.psw_32_63 = instruction;
        self.guest.general_registers[2] = 0x5A00_0000 | (operand - DISPLACEMENT);
    }

    /// Gives the logical addresses for two real ones.
    fn turn_on_dat(&mut self, instruction: u32, operand: u32) -> (u32, u32) {
        self.guest.psw_0_31 |= PSW_DAT;
        self.guest.control_register_0 = 0b10000 << 19;
        self.guest.control_register_1 = 0x0F00_0000 | self.address(SEGMENT_TABLE);
        let logical_instruction = INSTRUCTION_PAGE | (instruction & 0xFFF);
        let logical_operand = OPERAND_PAGE | (operand & 0xFFF);
        self.map(SEGMENT_TABLE, INSTRUCTION_PAGE_TABLE, logical_instruction, instruction);
        self.map(SEGMENT_TABLE, OPERAND_PAGE_TABLE, logical_operand, operand);
        (logical_instruction, logical_operand)
    }

    /// MICRSEG, tables, swap table; the key as found has its reference bit one.
    fn put_real_tables(&mut self) {
        self.guest.general_registers[3] = 0xABCD_EF3F;
        self.guest.general_registers[4] = 0x5A00_0000 | KEYED_ADDRESS;
        let keyed_frame = self.address(KEYED_FRAME);
        let swap_table = self.address(SWAP_TABLE);
        self.image.put_word(self.guest.micblok_address(), 0x0F00_0000 | self.address(REAL_SEGMENT_TABLE));
        self.map(REAL_SEGMENT_TABLE, REAL_PAGE_TABLE, KEYED_ADDRESS, keyed_frame);
        self.image.put_word(self.address(REAL_PAGE_TABLE) - 4, swap_table);
        self.image.put_key((keyed_frame + (KEYED_ADDRESS & 0xFFF)) / 2048, 0x04);
    }

    /// LRA: MICRSEG, virtual control registers 0 and 1 (4K, 64K), real and virtual tables.
    fn put_virtual_tables(&mut self) {
        self.guest.general_registers[2] = 0x5A00_0000 | (LOADED_ADDRESS - INDEX - DISPLACEMENT);
        self.guest.general_registers[3] = 0xABCD_EF3F;
        self.guest.general_registers[4] = 0xA500_0000 | INDEX;
        let (micblok, ecblok) = (self.guest.micblok_address(), self.address(ECBLOK));
        self.image.put_word(micblok, 0x0F00_0000 | self.address(REAL_SEGMENT_TABLE));
        self.image.put_word(ecblok, 0b10000 << 19);
        self.image.put_word(ecblok + 4, 0x0F00_0000 | VIRTUAL_SEGMENT_TABLE_ADDRESS);
        let segment_table = self.address(VIRTUAL_SEGMENT_TABLE);
        let page_table = self.address(VIRTUAL_PAGE_TABLE);
        self.map(REAL_SEGMENT_TABLE, REAL_PAGE_TABLE, VIRTUAL_SEGMENT_TABLE_ADDRESS, segment_table);
        self.map(REAL_SEGMENT_TABLE, SECOND_REAL_PAGE_TABLE, VIRTUAL_PAGE_TABLE_ADDRESS, page_table);
        let segment_entry = segment_table + 4 * (LOADED_ADDRESS >> 16);
        self.image.put_word(segment_entry, 0xF000_0000 | VIRTUAL_PAGE_TABLE_ADDRESS);
        self.image.put_halfword(page_table + 2 * (LOADED_ADDRESS >> 12 & 0xF), 0xABC0);
    }

    /// Segment entry and page entry (4K, 64K), so that the page of an address is in the frame of a real one.
    fn map(&mut self, segment_table: Place, page_table: Place, address: u32, real: u32) {
        let page_table = self.address(page_table);
        let segment_entry = self.address(segment_table) + 4 * (address >> 16);
        let page_entry = page_table + 2 * (address >> 12 & 0xF);
        self.image.put_word(segment_entry, 0xF000_0000 | page_table);
        self.image.put_halfword(page_entry, (real >> 12 << 4) as u16);
    }
}
