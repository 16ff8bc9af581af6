/*
 * The listing printer, called from C: MASM lines for record bodies and for whole listings.
 *
 * Link with target/staticlib/libhost.a (`commands/make . rt archive host`), or as `pkg-config --libs masm_listing` says
 * where ./install has put it in place; it is for x86-64 Linux and needs memcpy and memset and nothing else.
 * This header is C99, and C++ reads it too; nothing older than C99 does (stdint.h, inline).
 *
 * The archive allocates nothing, keeps nothing between calls and stops no program: every body and every
 * listing, whatever bytes it holds, gets one of the answers below. Calls from several threads at once are
 * fine as long as none of them writes what another one uses. A call takes less than 8 KiB of stack:
 * examples/stack_test.c measures some 3,000 bytes, over every opcode and kind. No theorem says so.
 *
 * What the caller owes, in every call:
 *   - both pointers are non-null and good for their lengths. With a length of 0 pass any non-null
 *     pointer, for example to an array of one byte: it is neither read nor written;
 *   - the text buffer overlaps neither the body nor the listing;
 *   - until the call returns nobody else writes the body or the listing, and nobody else reads or
 *     writes the text buffer;
 *   - no length is above PTRDIFF_MAX (no object in C is longer).
 * The buffer may hold any bytes before the call.
 */
#ifndef MASM_LISTING_H
#define MASM_LISTING_H

#include <stddef.h>
#include <stdint.h>

#ifdef __cplusplus
extern "C" {
#endif

/* The version of a record's body, and the first byte of a listing. */
enum {
	/* Without an address. */
	MASM_VERSION_1 = 1,
	/* With the address where the instruction starts. */
	MASM_VERSION_2 = 2
};

/* The mode: how a branch is shown. */
enum {
	/* As the Rust crate shows it: the sum of a short branch in 8 bits, so that 126 + 2 is $-80h; and
	   near ptr only before a near branch whose sum is 128 to 255. */
	MASM_MODE_CRATE = 0,
	/* Where it goes and how long it is: the sum whole, so that 126 + 2 is $+80h, and before it short or
	   near ptr. CALL and XBEGIN, which have no short form, have neither word. */
	MASM_MODE_STRAIGHT = 1,
	/* As MASM_MODE_STRAIGHT, with the address where the branch goes in place of $ and the sum: jmp short
	   00401019h, call 0FFFFFF80h. It is start address plus length plus distance, modulo 2^32, in eight
	   digits. For records of version 2 alone. */
	MASM_MODE_TARGET = 2
};

/*
 * The answers. They are asked in the order 1, 2, 3, 4, 5, 7, 6, and the first that applies is given: what gets
 * 6 is printed once it has the room.
 */
enum {
	/* The text was printed. The length is the number of bytes written, from the start of the buffer;
	   no byte after them was touched, and no byte 0 is put at the end. */
	MASM_PRINTED = 0,
	/* The mode is above 2. Record: also where the version is neither 1 nor 2, or is 1 in mode 2. */
	MASM_BAD_MODE = 1,
	/* Record: the body is under 14 bytes, or has not exactly 14, five or six for each operand that its
	   count says, by the kind that is stored there, and two more if it is extended (see below). For 14
	   it is 18 in version 2.
	   Listing: it is longer than MASM_LISTING_MAX bytes. */
	MASM_BAD_LENGTH = 2,
	/* Record only, as are 4, 5 and 7: a field is outside the record rules. */
	MASM_BAD_FIELD = 3,
	/* The operands are not of a shape that this opcode's line can show. */
	MASM_BAD_SHAPE = 4,
	/* The line calls for a size label and mem_size has none there. */
	MASM_BAD_SIZE = 5,
	/* The text is longer than the buffer. The length is the number of bytes that it needs. */
	MASM_NO_ROOM = 6,
	/* The line would show {1toN} with an N above 16. */
	MASM_BAD_BROADCAST = 7
};
/* After any answer but 0 the buffer is as it was before the call. After any but 0 and 6 the length is 0. */

#define MASM_LINE_MAX 320          /* no record's text is longer; a listing's line has a newline more */
#define MASM_LISTING_MAX 16777216  /* bytes of a listing, its version byte included */

/*
 * A record's body, in short; docs/FORMAT.md has it in full. Numbers of more than one byte have their highest
 * byte first.
 *
 *   at, in version
 *    1    2   bytes
 *    0    0       2   opcode, 0 to 175
 *    2    2       1   flags: bit 0 xacquire, 1 xrelease, 2 lock, 3 rep, 4 repnz, 5 operand size, 6 {1toN}; bit 7
 *                     is 0, and so is bit 6 unless the record is extended
 *    3    3       1   length of the instruction, 1 to 15
 *         4       4   in version 2 alone: start address of the instruction, any number
 *    4    8       1   mem_size
 *    5    9       4   imm
 *    9   13       4   disp
 *   13   17       1   count of operands, 0 to 4
 *   14   18  5 or 6   for each operand: kind, segment, first register, second register, scale; of the kinds 17 to
 *                     22, which are 11 to 16 with a mask, also the register byte of the mask, 73 (k1) to 79 (k7)
 *                 2   if the record is extended: length bits (bit 0 l, bit 1 lp; 0 to 3), and tail (0 none,
 *                     1 {sae}, 2 the rounding word of the length bits)
 *
 * A record is extended if its opcode is 154 to 175 or if any operand that it stores is of kind 17 to 22. The
 * register bytes 64 to 71 (zmm0 to zmm7) and 72 to 79 (k0 to k7) are for extended records alone.
 *
 * The modes 0 and 1 do not show the start address: there a body of version 2 gets what it would get without these
 * four bytes as version 1.
 */

/*
 * One record body: its line, without a newline. The version is that of the listing which the body is from.
 *
 * Up to 0.7 there was no version, and the mode stood in its place. That signature is gone: put MASM_VERSION_1
 * before the mode, and compile again all that calls it.
 */
uint64_t masm_print_record(const uint8_t *body, size_t body_len, uint32_t version, uint32_t mode,
                           uint8_t *text, size_t text_len);

/*
 * One whole listing: a line and a newline for each record. Its first byte says the version. A refused record is
 * the line `; refused N` with its answer N; a version byte other than 1 and 2 gives the single line `; version`;
 * missing bytes end the text with `; cut`. So the answer itself is 0, 1 (the mode is above 2), 2 (too long) or 6.
 * A listing of version 1 holds no addresses: in mode 2 it is answered as any other, and each of its records is the
 * line `; refused 1`, whatever its body.
 */
uint64_t masm_print_listing(const uint8_t *listing, size_t listing_len, uint32_t mode,
                            uint8_t *text, size_t text_len);

/* Both return the answer times 2^32 plus the length. The two halves: */
static inline uint32_t masm_answer(uint64_t returned)
{
	return (uint32_t)(returned >> 32);
}

static inline uint32_t masm_length(uint64_t returned)
{
	return (uint32_t)(returned & UINT32_C(0xFFFFFFFF));
}

#ifdef __cplusplus
}
#endif

#endif
