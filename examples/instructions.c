/*
 * A guest's storage with its control blocks and tables; then each of the eight instructions, and four calls that end
 * otherwise. What happened is printed in words; instructions.expected has what must be, worked out by hand.
 */
#include "vma.h"

#include <stdio.h>
#include <string.h>

enum { STORAGE_BYTES = 0x4000, KEY_COUNT = STORAGE_BYTES / VMA_BLOCK_BYTES };

/* Places in real storage. */
enum {
    MICBLOK = 0x400,
    ECBLOK = 0x500,
    VIRTUAL_PSW = 0x600,
    SEGMENT_TABLE = 0x800,
    PAGE_TABLE = 0xC10, /* the word before it has the address of the swap table */
    SWAP_TABLE = 0xD00,
    CODE = 0x1000,         /* frame of the guest's page 3 */
    OPERANDS = 0x2000,     /* frame of the guest's page 2 */
    GUEST_SEGMENTS = 0x2100, /* the guest's own tables, in its page 2: virtual addresses, and here real ones too */
    GUEST_PAGES = 0x2180
};

static uint8_t storage[STORAGE_BYTES], keys[KEY_COUNT];

static void put_halfword(uint32_t address, uint16_t value)
{
    storage[address] = (uint8_t)(value >> 8);
    storage[address + 1] = (uint8_t)value;
}

static void put_word(uint32_t address, uint32_t value)
{
    put_halfword(address, (uint16_t)(value >> 16));
    put_halfword(address + 2, (uint16_t)value);
}

static uint32_t word_in(const uint8_t *bytes)
{
    return (uint32_t)bytes[0] << 24 | (uint32_t)bytes[1] << 16 | (uint32_t)bytes[2] << 8 | bytes[3];
}

/* The control program's blocks for this guest, its translation tables, and its code. */
static void set_up(void)
{
    static const uint16_t code[] = {
        0x8000, 0x2010, /* 003000 SSM   16(2) */
        0xB6E1, 0x2020, /* 003004 STCTL 14,1,32(2) */
        0xACFC, 0x2030, /* 003008 STNSM 48(2),X'FC' */
        0xAD03, 0x2031, /* 00300C STOSM 49(2),X'03' */
        0x0834,         /* 003010 SSK   3,4 */
        0x0964,         /* 003012 ISK   6,4 */
        0xB213, 0x4000, /* 003014 RRB   0(4) */
        0xB170, 0x8000, /* 003018 LRA   7,0(8) */
        0xB655, 0x5000, /* 00301C STCTL 5,5,0(5) */
        0x8000, 0x2040  /* 003020 SSM   64(2) */
    };
    put_word(MICBLOK, SEGMENT_TABLE);   /* MICRSEG: length 0, 64K segments */
    put_word(MICBLOK + 4, ECBLOK);      /* MICCREG */
    put_word(MICBLOK + 8, VIRTUAL_PSW); /* MICVPSW: nothing pending */
    put_word(ECBLOK, 0x808000E0);       /* virtual control register 0: bit 1 zero, so that SSM is assisted; and for
                                           LRA, in bits 8-12, 4K pages and 64K segments */
    put_word(ECBLOK + 4, GUEST_SEGMENTS); /* virtual control register 1 */
    for (uint32_t r = 2; r < 16; r++)
        put_word(ECBLOK + 4 * r, 0x01010101 * r);
    put_word(GUEST_SEGMENTS + 4 * 1, 0x20000000 | GUEST_PAGES); /* segment 1: three pages */
    put_halfword(GUEST_PAGES + 2 * 2, 0x7890);                  /* page 2 in the guest's frame 789 */
    put_word(VIRTUAL_PSW, 0x04080000); /* mask 04, EC mode */
    put_word(SEGMENT_TABLE, 0xF0000000 | PAGE_TABLE);
    put_word(PAGE_TABLE - 4, SWAP_TABLE);
    for (uint32_t page = 0; page < 16; page++)
        put_halfword(PAGE_TABLE + 2 * page, 0x0008); /* invalid */
    put_halfword(PAGE_TABLE + 2 * 2, OPERANDS >> 8);
    put_halfword(PAGE_TABLE + 2 * 3, CODE >> 8);
    storage[OPERANDS + 0x10] = 0x07; /* what SSM sets */
    keys[2] = 0x04;                  /* the code's block has been referred to */
    for (uint32_t i = 0; i < sizeof code / sizeof code[0]; i++)
        put_halfword(CODE + 2 * i, code[i]);
}

static void print_answer(const char *name, uint32_t address, uint64_t answer)
{
    unsigned ending = vma_ending(answer), code = vma_code(answer);
    printf("%-5s at %06X: %u %s", name, (unsigned)address, ending, vma_ending_name(ending));
    if (ending == VMA_INTERRUPTION)
        printf(", code %u %s", code, vma_code_name(code));
    if (ending == VMA_INTERRUPTION && (code == VMA_SEGMENT_TRANSLATION || code == VMA_PAGE_TRANSLATION))
        printf(" at %06X", (unsigned)vma_address(answer));
    if (ending == VMA_FIELD_MISSING)
        printf(", step or place %u", code);
    printf("; %u references\n", vma_count(answer));
}

/* What ISK, RRB and LRA leave in the record. */
static void print_results(const uint32_t guest[21], const uint32_t before[21])
{
    for (unsigned r = 0; r < 16; r++)
        if (guest[VMA_GENERAL + r] != before[VMA_GENERAL + r])
            printf("      register %u: %08X -> %08X\n", r, (unsigned)before[VMA_GENERAL + r],
                   (unsigned)guest[VMA_GENERAL + r]);
    if (vma_condition_code(guest) != vma_condition_code(before))
        printf("      condition code: %u -> %u\n", vma_condition_code(before), vma_condition_code(guest));
}

static void print_changes(const uint8_t *storage_before, const uint8_t *keys_before)
{
    for (uint32_t a = 0; a < STORAGE_BYTES; a += 4)
        if (memcmp(storage + a, storage_before + a, 4) != 0)
            printf("      storage %06X: %08X -> %08X\n", (unsigned)a, (unsigned)word_in(storage_before + a),
                   (unsigned)word_in(storage + a));
    for (uint32_t k = 0; k < KEY_COUNT; k++)
        if (keys[k] != keys_before[k])
            printf("      key of block %u: %02X -> %02X\n", (unsigned)k, keys_before[k], keys[k]);
}

/* The instruction that the guest's PSW is at; its code is in one frame, which is found here without tables. */
static void run(const char *name, uint32_t guest[21])
{
    static uint8_t storage_before[STORAGE_BYTES], keys_before[KEY_COUNT];
    uint32_t guest_before[VMA_GUEST_WORDS];
    uint32_t address = vma_instruction_address(guest);
    uint32_t real = CODE + (address & 0xfff);
    uint16_t first_halfword = (uint16_t)(storage[real] << 8 | storage[real + 1]);
    memcpy(storage_before, storage, sizeof storage);
    memcpy(keys_before, keys, sizeof keys);
    memcpy(guest_before, guest, sizeof guest_before);
    uint64_t answer = vma_attempt(storage, sizeof storage, keys, sizeof keys, guest, first_halfword, true);
    print_answer(name, address, answer);
    print_changes(storage_before, keys_before);
    print_results(guest, guest_before);
    printf("      next %06X\n", (unsigned)vma_instruction_address(guest));
}

int main(void)
{
    /* Translation on, key 0, EC mode, problem state; 4K pages and 64K segments; the assist on, MICBLOK at 000400. */
    uint32_t guest[VMA_GUEST_WORDS] = {0x04090000, 0x00003000};
    guest[VMA_GENERAL + 2] = 0x00002000; /* base of the operands */
    guest[VMA_GENERAL + 3] = 0x0000003F; /* SSK: the key */
    guest[VMA_GENERAL + 4] = 0x00003000; /* SSK, ISK and RRB: the address */
    guest[VMA_GENERAL + 5] = 0x00005000; /* page 5 is invalid */
    guest[VMA_GENERAL + 6] = 0xABCDEF00; /* ISK: the result */
    guest[VMA_GENERAL + 7] = 0xABCDEF00; /* LRA: the result */
    guest[VMA_GENERAL + 8] = 0x00012345; /* LRA: the address, in segment 1, page 2 */
    guest[VMA_CONTROL_0] = 0x00800000;
    guest[VMA_CONTROL_1] = SEGMENT_TABLE;
    guest[VMA_CONTROL_6] = 0x80000000 | MICBLOK;
    set_up();
    run("SSM", guest);
    run("STCTL", guest);
    run("STNSM", guest);
    run("STOSM", guest);
    run("SSK", guest);
    run("ISK", guest);
    run("RRB", guest);
    run("LRA", guest);
    run("STCTL", guest);             /* a page of the operand isn't there: the guest is interrupted */
    guest[VMA_PSW_32_63] = 0x003020; /* as after the interruption; now SSM would turn the virtual mask's bit 5 off */
    run("SSM", guest);               /* the expanded assist is installed, but not switched on */
    guest[VMA_CONTROL_6] |= 0x02000000; /* bit 6 switches it on */
    run("SSM", guest);
    print_answer("none", 0, vma_attempt(NULL, 0, NULL, 0, guest, 0x8000, true));
    return 0;
}
