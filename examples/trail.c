/*
 * Calls written down in a trail that has room for two records: an emulator does the same with a larger buffer, and
 * saves the trail's bytes before it starts anew. trail.expected has what must be printed, worked out by hand.
 *
 * trail FILE also saves the trail, for `vma trail show FILE`.
 */
#include "vma.h"

#include <stdio.h>
#include <string.h>

enum { STORAGE_BYTES = 0x4000, KEY_COUNT = STORAGE_BYTES / VMA_BLOCK_BYTES, GUEST_NUMBER = 7 };

static uint8_t storage[STORAGE_BYTES], keys[KEY_COUNT];

static void put_word(uint32_t address, uint32_t value)
{
    for (unsigned i = 0; i < 4; i++)
        storage[address + i] = (uint8_t)(value >> (24 - 8 * i));
}

/* A trail, and the number of records held that its last call gave back. */
static uint8_t buffer[2 * VMA_TRAIL_RECORD_BYTES + VMA_TRAIL_TRAILER_BYTES];
static uint32_t held;

static void start(void)
{
    uint64_t result = vma_trail_start(buffer, sizeof buffer);
    held = vma_trail_held(result);
    printf("start: %s\n", vma_trail_refusal_name(vma_trail_refusal(result)));
}

/* One call, and what is written down of it. */
static void attempt(uint32_t guest[21], uint16_t first_halfword)
{
    uint32_t before[VMA_GUEST_WORDS];
    memcpy(before, guest, sizeof before);
    uint64_t answer = vma_attempt(storage, sizeof storage, keys, sizeof keys, guest, first_halfword, false);
    uint64_t result = vma_trail_write(buffer, sizeof buffer, held, GUEST_NUMBER, before, guest, first_halfword, false,
                                      answer);
    printf("%04X at %06X: %u %s; ", first_halfword, (unsigned)vma_instruction_address(before), vma_ending(answer),
           vma_ending_name(vma_ending(answer)));
    if (vma_trail_refusal(result) != VMA_TRAIL_NOT_REFUSED)
        printf("refused, %u: %s\n", vma_trail_refusal(result), vma_trail_refusal_name(vma_trail_refusal(result)));
    else if (vma_trail_held(result) == held)
        printf("TURNED AWAY, the trail is full\n");
    else
        printf("record %u\n", (unsigned)held);
    held = vma_trail_held(result);
}

static int save(const char *name)
{
    FILE *file = fopen(name, "wb");
    size_t bytes = (size_t)vma_trail_bytes(held);
    int saved = file != NULL && fwrite(buffer, 1, bytes, file) == bytes;
    if (file != NULL && fclose(file) != 0)
        saved = 0;
    if (!saved)
        perror(name);
    return saved ? 0 : 1;
}

int main(int count, char **words)
{
    uint32_t guest[VMA_GUEST_WORDS] = {0x00090000, 0x00001000}; /* EC mode, problem state, instruction at 001000 */
    guest[VMA_GENERAL + 2] = 0x00002000;
    guest[VMA_CONTROL_6] = 0x80000400; /* the assist on, MICBLOK at 000400 */
    put_word(0x404, 0x500);            /* MICCREG: ECBLOK, with virtual control register 0 zero */
    put_word(0x408, 0x600);            /* MICVPSW */
    put_word(0x600, 0x04080000);       /* virtual PSW: mask 04, EC mode */
    put_word(0x1000, 0x80002000);      /* SSM 0(2) */
    put_word(0x2000, 0x07000000);      /* the operand: mask 07 */
    start();
    attempt(guest, 0x8000);
    attempt(guest, 0x0700); /* no instruction of the assist */
    guest[VMA_PSW_32_63] = 0x00001000;
    attempt(guest, 0x8000);
    uint32_t came_back = held;
    held = 0; /* another number: the call is refused */
    attempt(guest, 0x0700);
    held = came_back;
    printf("%u records held, %u turned away, %u bytes to save\n", (unsigned)held,
           (unsigned)vma_trail_turned_away(buffer, held), (unsigned)vma_trail_bytes(held));
    return count == 2 ? save(words[1]) : 0;
}
