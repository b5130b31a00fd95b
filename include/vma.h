/*
 * The virtual-machine assist of System/370 (IBM manual GA22-7074): one attempt at SET SYSTEM MASK (80), STORE CONTROL
 * (B6), STORE THEN AND SYSTEM MASK (AC), STORE THEN OR SYSTEM MASK (AD), SET STORAGE KEY (08), INSERT STORAGE KEY (09),
 * RESET REFERENCE BIT (B213) or LOAD REAL ADDRESS (B1) for a guest; and a trail, in which attempts are written down.
 *
 * Link with libvma.a. docs/MANUAL.md has the rules, and what is proved of these functions.
 * Bit 0 is leftmost, numbers in storage are big-endian, and addresses are of 24 bits.
 */
#ifndef VMA_H
#define VMA_H

#include <stdbool.h>
#include <stddef.h>
#include <stdint.h>

#ifdef __cplusplus
extern "C" {
#endif

/* ---- Storage and keys ------------------------------------------------------------------------------------------- */

/*
 * Storage is the guest's real storage: a multiple of 2,048 bytes, from 2,048 to 16,777,216.
 * There is one key byte for each 2,048 bytes. Bits 0-3 are the access-control bits, bit 4 fetch protection, bit 5
 * reference, bit 6 change; bit 7 is never used and never changed.
 */
#define VMA_BLOCK_BYTES 2048u
#define VMA_STORAGE_MOST 16777216u

/* ---- The guest's record ----------------------------------------------------------------------------------------- */

/*
 * 21 words, in the byte order of the machine that runs the emulator. Of the PSW these bits count: 5 (translation on),
 * 8-11 (key), 12 (EC mode), 15 (problem state) and 40-63 (the address of this instruction); no other bit matters.
 * RESET REFERENCE BIT and LOAD REAL ADDRESS set bits 18-19, the condition code.
 */
enum {
    VMA_PSW_0_31 = 0,        /* real PSW, bits 0-31 */
    VMA_PSW_32_63 = 1,       /* real PSW, bits 32-63; bits 40-63 are bits 8-31 of this word */
    VMA_GENERAL = 2,         /* general register r is word VMA_GENERAL + r */
    VMA_CONTROL_0 = 18,      /* real control register 0: bit 3 is low-address protection, bits 8-12 the format */
    VMA_CONTROL_1 = 19,      /* real control register 1 */
    VMA_CONTROL_6 = 20,      /* real control register 6: bits 0-3 control the assist, bit 6 switches the expanded assist
                                on, bits 8-28 are MICBLOK's address */
    VMA_GUEST_WORDS = 21
};

/* ---- One attempt ------------------------------------------------------------------------------------------------ */

/*
 * storage, storage_bytes   storage, and its size
 * keys, key_count          the keys, and how many there are
 * guest                    PSW bits 0-31, PSW bits 32-63, general registers 0-15, control registers 0, 1 and 6
 * first_halfword           the first halfword of the instruction; it isn't fetched, and needn't be in storage
 * expanded_installed       whether the expanded virtual-machine assist is installed; an instruction that needs it is
 *                          handed over if bit 6 of control register 6 is one too, else interrupted with code 2
 *
 * Every call is answered, whatever the sizes, bytes, keys, words and halfword are: the answer says how it ended. On
 * completion (VMA_COMPLETED) the instruction's stores and its setting of a key are done, and guest holds the record
 * handed back: the instruction address is moved on by the instruction's length, modulo 2^24; INSERT STORAGE KEY has set
 * bits 24-31 of the register that its R1 field names, RESET REFERENCE BIT the condition code, LOAD REAL ADDRESS the
 * condition code and the register that its R1 field names; nothing else is changed.
 * On every other ending storage and guest are as they were, and so are the keys but for reference bits.
 *
 * References are recorded in the keys as they are made: a fetch sets the reference bit (5, value 04) of every block of
 * 2,048 bytes that it touches, a store the reference and change bits (5 and 6, value 06). What was recorded before an
 * ending stays. Recording leaves the other bits of a key alone.
 *
 * The caller sees to it that storage points to storage_bytes bytes, keys to key_count bytes and guest to 21 words, that
 * no two of these overlap, and that nothing else reads or writes them during the call. A pointer whose count is 0 isn't
 * followed. The function allocates nothing and keeps nothing between calls.
 *
 * The answer: the ending in bits 0-7, its code, step or place in bits 8-15, the count of references in bits 16-31, the
 * logical address in bits 32-63. The functions below take it apart.
 */
uint64_t vma_attempt(uint8_t *storage, size_t storage_bytes, uint8_t *keys, size_t key_count,
                     uint32_t guest[21], uint16_t first_halfword, bool expanded_installed);

/* ---- The answer ------------------------------------------------------------------------------------------------- */

/* How an attempt ended. The tests come in the order 10, 11, 12, 13, 9; then the instruction's steps. */
enum {
    VMA_COMPLETED = 0,
    VMA_INTERRUPTION = 1,        /* program interruption: vma_code is the interruption code */
    VMA_EXPANDED = 2,            /* handed to the expanded assist, which is installed and switched on */
    VMA_FIELD_MISSING = 3,       /* a control field, or the page's key block, is not in storage: vma_code is the step;
                                    with 09, B213 and B1 the place, from 1, among these as they were tried */
    VMA_WRONG_MODE = 9,          /* real PSW bit 12 or bit 15 is zero */
    VMA_WRONG_STORAGE_SIZE = 10, /* not a multiple of 2,048, or outside 2,048 to 16,777,216 */
    VMA_WRONG_KEY_COUNT = 11,    /* not one key for each 2,048 bytes */
    VMA_ODD_ADDRESS = 12,        /* the instruction address is odd */
    VMA_NOT_ASSISTED = 13        /* the operation code is none of the eight */
};

/* The interruption codes. */
enum {
    VMA_PRIVILEGED_OPERATION = 2, /* also: the assist leaves the instruction to the control program */
    VMA_PROTECTION = 4, /* by the key; or an operand store at logical address 0 to 511, control register 0 bit 3 one */
    VMA_ADDRESSING = 5,
    VMA_SEGMENT_TRANSLATION = 16,     /* vma_address is the logical address */
    VMA_PAGE_TRANSLATION = 17,        /* vma_address is the logical address */
    VMA_TRANSLATION_SPECIFICATION = 18
};

/* The ending: one of VMA_COMPLETED to VMA_NOT_ASSISTED. */
static inline unsigned vma_ending(uint64_t answer)
{
    return (unsigned)(answer >> 56);
}

/* The interruption code, for VMA_INTERRUPTION; the step or place, for VMA_FIELD_MISSING; else 0. */
static inline unsigned vma_code(uint64_t answer)
{
    return (unsigned)(answer >> 48 & 0xff);
}

/* How many references to storage and keys were made, at most 85. */
static inline unsigned vma_count(uint64_t answer)
{
    return (unsigned)(answer >> 32 & 0xffff);
}

/* The logical address of the byte, halfword or word tested, for the codes 16 and 17; else 0. */
static inline uint32_t vma_address(uint64_t answer)
{
    return (uint32_t)answer;
}

/* The address of the next instruction, in a record that was handed back. */
static inline uint32_t vma_instruction_address(const uint32_t guest[21])
{
    return guest[VMA_PSW_32_63] & 0xffffff;
}

/* The condition code, 0 to 3, in a record that was handed back. */
static inline unsigned vma_condition_code(const uint32_t guest[21])
{
    return guest[VMA_PSW_0_31] >> 12 & 3;
}

/* An ending in words. */
static inline const char *vma_ending_name(unsigned ending)
{
    switch (ending) {
    case VMA_COMPLETED: return "completed";
    case VMA_INTERRUPTION: return "program interruption";
    case VMA_EXPANDED: return "handed to the expanded assist";
    case VMA_FIELD_MISSING: return "a control field or key block is not in storage";
    case VMA_WRONG_MODE: return "the real PSW is not in the EC mode and the problem state";
    case VMA_WRONG_STORAGE_SIZE: return "wrong size of storage";
    case VMA_WRONG_KEY_COUNT: return "wrong number of keys";
    case VMA_ODD_ADDRESS: return "odd instruction address";
    case VMA_NOT_ASSISTED: return "operation code not assisted";
    default: return "no ending of the assist";
    }
}

/* An interruption code in words. */
static inline const char *vma_code_name(unsigned code)
{
    switch (code) {
    case VMA_PRIVILEGED_OPERATION: return "privileged operation";
    case VMA_PROTECTION: return "protection";
    case VMA_ADDRESSING: return "addressing";
    case VMA_SEGMENT_TRANSLATION: return "segment translation";
    case VMA_PAGE_TRANSLATION: return "page translation";
    case VMA_TRANSLATION_SPECIFICATION: return "translation specification";
    default: return "no interruption code of the assist";
    }
}

/* ---- A trail ---------------------------------------------------------------------------------------------------- */

/*
 * A record of each call, 128 bytes, in a buffer that the caller lends; and right after the last record a trailer of 16
 * bytes, which says how many records are held and how many were turned away because there was no room. Big-endian.
 * docs/MANUAL.md, "The trail", lists the fields.
 */
#define VMA_TRAIL_RECORD_BYTES 128u
#define VMA_TRAIL_TRAILER_BYTES 16u

/*
 * Starts a trail: an empty trailer is written at the buffer's front, and no other byte is changed. A buffer of fewer
 * than 16 bytes is refused (VMA_TRAIL_SHORT_BUFFER), and is as it was. The number of records held is 0 in both cases.
 */
uint64_t vma_trail_start(uint8_t *buffer, size_t bytes);

/*
 * Writes a call of vma_attempt down.
 *
 * buffer, bytes            the buffer, and its size
 * held                     the number of records held: vma_trail_held of what the last call on this trail gave back
 * guest_number             the number by which the caller knows the guest
 * before, after            the guest's record before the call, and as the call left it
 * first_halfword, expanded_installed   as they were given to vma_attempt
 * answer                   what vma_attempt gave back
 *
 * If one record more and the trailer fit in the buffer, and the records then have 4,294,967,295 bytes at most, the
 * record goes in where the trailer stood, with the trailer after it, and the number held is one more. Otherwise only
 * the trailer's number of records turned away rises (it stays at 4,294,967,295 once there), and the number held is that
 * given. Refused are, in this order, a buffer of fewer than 16 bytes (VMA_TRAIL_SHORT_BUFFER), and a trailer that isn't
 * where the number given points to, or has another number, distance or version (VMA_TRAIL_NO_TRAILER): then nothing is
 * changed, and the number held is that given. No other byte is ever changed. A caller who each time gives the number
 * that came back, and leaves the buffer alone, has no record written over before a new start.
 *
 * The caller sees to it that buffer points to as many bytes as is said, that before and after point to 21 words each
 * and don't overlap the buffer (they may be the same words), and that nothing else writes to any of them during the
 * call.
 *
 * Both functions give back the refusal's number in bits 0-7 and the number of records held in bits 32-63; those below
 * take that apart.
 */
uint64_t vma_trail_write(uint8_t *buffer, size_t bytes, uint32_t held, uint32_t guest_number,
                         const uint32_t before[21], const uint32_t after[21], uint16_t first_halfword,
                         bool expanded_installed, uint64_t answer);

/* Why a call on a trail is refused. The test for 21 comes first. */
enum {
    VMA_TRAIL_NOT_REFUSED = 0,  /* the record went in, or was turned away */
    VMA_TRAIL_NO_TRAILER = 20,  /* the trailer that the number given points at isn't there, or is another */
    VMA_TRAIL_SHORT_BUFFER = 21 /* a buffer of fewer than 16 bytes */
};

/* The refusal, or VMA_TRAIL_NOT_REFUSED. */
static inline unsigned vma_trail_refusal(uint64_t result)
{
    return (unsigned)(result >> 56);
}

/* The number of records held, to be given with the next call on the trail. */
static inline uint32_t vma_trail_held(uint64_t result)
{
    return (uint32_t)result;
}

/* How many bytes of the buffer a trail with so many records has, its trailer included: what is to be saved of it. */
static inline uint64_t vma_trail_bytes(uint32_t held)
{
    return (uint64_t)held * VMA_TRAIL_RECORD_BYTES + VMA_TRAIL_TRAILER_BYTES;
}

/* How many records were turned away, by the trailer of a trail with so many records, which is in the buffer. */
static inline uint32_t vma_trail_turned_away(const uint8_t *buffer, uint32_t held)
{
    const uint8_t *at = buffer + vma_trail_bytes(held) - 8;
    return (uint32_t)at[0] << 24 | (uint32_t)at[1] << 16 | (uint32_t)at[2] << 8 | at[3];
}

/* A refusal in words. */
static inline const char *vma_trail_refusal_name(unsigned refusal)
{
    switch (refusal) {
    case VMA_TRAIL_NOT_REFUSED: return "not refused";
    case VMA_TRAIL_NO_TRAILER: return "there is no such trailer where the number of records points to";
    case VMA_TRAIL_SHORT_BUFFER: return "the buffer has fewer than 16 bytes";
    default: return "no refusal of a trail";
    }
}

#ifdef __cplusplus
}
#endif

#endif
