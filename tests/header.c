/* The functions of include/vma.h, on numbers written here by hand. */
#include "vma.h"

#include <stdio.h>
#include <string.h>

static int failures;

static void expect(int holds, const char *what)
{
    if (!holds) {
        printf("header: not so: %s\n", what);
        failures++;
    }
}

static void fields(void)
{
    expect(vma_ending(0x0111020304050607u) == 0x01, "the ending is in bits 0-7");
    expect(vma_code(0x0111020304050607u) == 0x11, "the code is in bits 8-15");
    expect(vma_count(0x0111020304050607u) == 0x0203, "the count is in bits 16-31");
    expect(vma_address(0x0111020304050607u) == 0x04050607, "the address is in bits 32-63");
    expect(vma_ending(0xFF00000000000000u) == 0xFF && vma_code(0xFF00000000000000u) == 0, "no ending in the code");
    expect(vma_code(0x00FF000000000000u) == 0xFF && vma_count(0x00FF000000000000u) == 0, "no code in the count");
    expect(vma_count(0x0000FFFF00000000u) == 0xFFFF && vma_address(0x0000FFFF00000000u) == 0,
           "no count in the address");
    expect(vma_address(0x00000000FFFFFFFFu) == 0xFFFFFFFF && vma_count(0x00000000FFFFFFFFu) == 0,
           "no address in the count");
}

static void record(void)
{
    uint32_t guest[VMA_GUEST_WORDS];
    memset(guest, 0xFF, sizeof guest);
    guest[1] = 0xAB012345;
    expect(sizeof guest == 84, "the record has 21 words of 4 bytes");
    expect(vma_instruction_address(guest) == 0x012345, "the instruction address is PSW bits 40-63");
    for (unsigned code = 0; code < 4; code++) {
        guest[0] = 0xFFFFCFFF | code << 12;
        expect(vma_condition_code(guest) == code, "the condition code is PSW bits 18-19");
        guest[0] = code << 12;
        expect(vma_condition_code(guest) == code, "no other bit is in the condition code");
    }
    expect(VMA_PSW_0_31 == 0 && VMA_PSW_32_63 == 1 && VMA_GENERAL == 2, "the PSW, then the general registers");
    expect(VMA_CONTROL_0 == 18 && VMA_CONTROL_1 == 19 && VMA_CONTROL_6 == 20, "control registers 0, 1 and 6");
}

/* Each number of document 01's tables has a name of its own, and no other number has one. */
static void names(void)
{
    static const unsigned endings[] = {0, 1, 2, 3, 9, 10, 11, 12, 13}, codes[] = {2, 4, 5, 16, 17, 18};
    unsigned named_endings = 0, named_codes = 0;
    for (unsigned n = 0; n < 256; n++) {
        named_endings += strcmp(vma_ending_name(n), vma_ending_name(255)) != 0;
        named_codes += strcmp(vma_code_name(n), vma_code_name(255)) != 0;
    }
    expect(named_endings == 9, "nine endings are named");
    expect(named_codes == 6, "six codes are named");
    for (unsigned i = 0; i < 9; i++) {
        expect(strcmp(vma_ending_name(endings[i]), vma_ending_name(255)) != 0, "each ending is named");
        for (unsigned j = 0; j < i; j++)
            expect(strcmp(vma_ending_name(endings[i]), vma_ending_name(endings[j])) != 0, "no two endings alike");
    }
    for (unsigned i = 0; i < 6; i++) {
        expect(strcmp(vma_code_name(codes[i]), vma_code_name(255)) != 0, "each code is named");
        for (unsigned j = 0; j < i; j++)
            expect(strcmp(vma_code_name(codes[i]), vma_code_name(codes[j])) != 0, "no two codes alike");
    }
    expect(strcmp(vma_ending_name(12), "odd instruction address") == 0, "12 is an odd instruction address");
    expect(strcmp(vma_code_name(17), "page translation") == 0, "17 is page translation");
}

static void trail(void)
{
    static const unsigned refusals[] = {0, 20, 21};
    uint8_t buffer[3 * 128 + 16] = {0};
    unsigned named = 0;
    expect(vma_trail_refusal(0x1400000002000001u) == 20, "the refusal is in bits 0-7");
    expect(vma_trail_held(0x1400000002000001u) == 0x02000001, "the number of records held is in bits 32-63");
    expect(vma_trail_refusal(0x00FFFFFFFFFFFFFFu) == 0, "nothing else is in the refusal");
    expect(vma_trail_held(0xFFFFFFFF00000000u) == 0, "nothing else is in the number of records held");
    expect(vma_trail_bytes(0) == 16 && vma_trail_bytes(3) == 400, "records of 128 bytes, and a trailer of 16");
    expect(vma_trail_bytes(0xFFFFFFFF) == 549755813776u, "no number of records is too large");
    buffer[3 * 128 + 8] = 0x89, buffer[3 * 128 + 9] = 0xAB, buffer[3 * 128 + 10] = 0xCD, buffer[3 * 128 + 11] = 0xEF;
    expect(vma_trail_turned_away(buffer, 3) == 0x89ABCDEF, "those turned away are the trailer's third number");
    expect(vma_trail_turned_away(buffer, 0) == 0, "at the front none was turned away");
    for (unsigned n = 0; n < 256; n++)
        named += strcmp(vma_trail_refusal_name(n), vma_trail_refusal_name(255)) != 0;
    expect(named == 3, "three refusals are named, 'not refused' among them");
    for (unsigned i = 0; i < 3; i++)
        for (unsigned j = 0; j < i; j++)
            expect(strcmp(vma_trail_refusal_name(refusals[i]), vma_trail_refusal_name(refusals[j])) != 0,
                   "no two refusals alike");
}

int main(void)
{
    fields();
    record();
    names();
    trail();
    if (failures == 0)
        printf("header: its functions and numbers are as they should be\n");
    return failures != 0;
}
