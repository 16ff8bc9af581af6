/*
 * Drives the archive through its C boundary: every version and mode number that matters, every answer, buffers
 * of exactly the right length, one byte less and none at all, with canary bytes all around, and all the lines
 * that document 01 gives to compare; and the vector records and the targets of document 02. Each body is tried
 * in both versions.
 *
 *     host_test [STEM]
 *
 * With a stem it also writes the listings of all bodies that it tried, STEM1.lst and STEM2.lst, by version, and
 * the lines that the record entry gave for them in the modes 0 to 2, STEM1.crate, STEM1.straight, STEM1.target
 * and the same of STEM2, so that the listing programs can be held to them.
 * The last line is `host: K checks, all hold`; exit status 1 if one does not.
 */
#include <stdarg.h>
#include <stdio.h>
#include <stdlib.h>
#include <string.h>

#include "masm_listing.h"

enum {
	CANARY = 64,       /* watched bytes on either side of a lent buffer */
	AMPLE = 512,       /* more than any line */
	PLAIN_MAX = 1289,  /* 14 + 5 * 255, the longest body of a record that is not extended */
	BODY_MAX = 1546,   /* 14 + 6 * 255 + 2, the longest whose length can be right */
	FRONT = 4,         /* opcode, flags and length: version 2 has the start address after them */
	START = 4,         /* its bytes */
	MODES = 3
};

static unsigned long checks, failures;

static void check(int holds, const char *format, ...)
{
	va_list words;

	checks++;
	if (holds)
		return;
	failures++;
	fputs("host: FAILS: ", stderr);
	va_start(words, format);
	vfprintf(stderr, format, words);
	va_end(words);
	fputc('\n', stderr);
}

static void *block(size_t length)
{
	void *at = malloc(length > 0 ? length : 1);

	if (at == NULL) {
		fputs("host: there is no memory for the test\n", stderr);
		exit(2);
	}
	return at;
}

/* ---- record bodies, in the layout of version 1 */

struct body {
	const char *about;
	uint8_t bytes[BODY_MAX + START];
	size_t length;
};

static void put_word(uint8_t *at, uint32_t value)
{
	at[0] = (uint8_t)(value >> 8);
	at[1] = (uint8_t)value;
}

static void put_dword(uint8_t *at, uint32_t value)
{
	put_word(at, value >> 16);
	put_word(at + 2, value);
}

static uint32_t dword_at(const uint8_t *at)
{
	return (uint32_t)at[0] << 24 | (uint32_t)at[1] << 16 | (uint32_t)at[2] << 8 | at[3];
}

static struct body record(const char *about, unsigned opcode, unsigned length, unsigned size, uint32_t imm, uint32_t disp)
{
	struct body b;

	memset(&b, 0, sizeof b);
	b.about = about;
	put_word(b.bytes, opcode);
	b.bytes[3] = (uint8_t)length;
	b.bytes[4] = (uint8_t)size;
	put_dword(b.bytes + 5, imm);
	put_dword(b.bytes + 9, disp);
	b.length = 14;
	return b;
}

static struct body with(struct body b, unsigned kind, unsigned segment, unsigned first, unsigned second, unsigned scale)
{
	uint8_t *at = b.bytes + b.length;

	at[0] = (uint8_t)kind;
	at[1] = (uint8_t)segment;
	at[2] = (uint8_t)first;
	at[3] = (uint8_t)second;
	at[4] = (uint8_t)scale;
	b.bytes[13]++;
	b.length += 5;
	return b;
}

/* An operand with a mask: a byte more. */
static struct body masked(struct body b, unsigned kind, unsigned segment, unsigned first, unsigned second, unsigned scale,
                          unsigned mask)
{
	b = with(b, kind, segment, first, second, scale);
	b.bytes[b.length++] = (uint8_t)mask;
	return b;
}

/* The two bytes that end an extended record. */
static struct body ends(struct body b, unsigned bits, unsigned tail)
{
	b.bytes[b.length++] = (uint8_t)bits;
	b.bytes[b.length++] = (uint8_t)tail;
	return b;
}

static struct body flagged(struct body b, unsigned flags)
{
	b.bytes[2] = (uint8_t)flags;
	return b;
}

/* The same body in version 2: with a start address put in. */
static struct body started(const struct body *b, uint32_t start)
{
	struct body second = *b;
	size_t front = b->length < FRONT ? b->length : FRONT;

	put_dword(second.bytes + front, start);
	memcpy(second.bytes + front + START, b->bytes + front, b->length - front);
	second.length += START;
	return second;
}

/* opcode numbers, register bytes and segments of documents 01 and 02, as far as they are used here */
enum {
	JMP = 0, CALL = 1, LOOP = 3, JZ = 10, JG = 21, XBEGIN = 22, MOV = 23, PUSH = 33, FXSAVE = 39, MOVS = 60, LSL = 65, SGDT = 75, LSS = 79, NOP = 80,
	LODS = 89, LEA = 101, AAM = 103, FADD = 112, FLD = 143, FST = 149, VPSCATTERDD = 154, VPSCATTERQQ = 157, VCVTPD2PS = 158,
	VCVTNEPS2BF16 = 168, VADDPD = 175, OPCODES = 176
};
enum { EAX = 0, ECX = 1, EBX = 3, ESI = 6, EDI = 7, DX = 10, ST0 = 32, XMM7 = 55, YMM0 = 56, ZMM0 = 64, K0 = 72, K1 = 73, K7 = 79 };
enum { XACQUIRE = 1, XRELEASE = 2, LOCK = 4, REPNZ = 16, BROADCAST = 64 };
enum { NONE = 0, ES = 1, DS = 4, FS = 5 };

/* ---- one call, with everything around it watched */

/* a byte that is different at neighbouring places, so that a shifted write shows too */
static uint8_t canary(size_t place)
{
	return (uint8_t)(0xA5 ^ (place * 7));
}

/* With a length of 0 the header asks for any pointer that is not null. */
static uint8_t one_byte[1] = {0x5A};

/* What is called: the record entry with this version, or the listing entry, whose input says the version. */
#define LISTING UINT64_C(4294967296)

static uint64_t print(uint64_t version, const uint8_t *input, size_t input_len, uint32_t mode, uint8_t *text, size_t text_len)
{
	if (version == LISTING)
		return masm_print_listing(input, input_len, mode, text, text_len);
	return masm_print_record(input, input_len, (uint32_t)version, mode, text, text_len);
}

/* Calls and holds the outcome to `answer` and `text` (of `needed` bytes; what would be printed, for
   answer 6). Input and buffer are blocks of exactly their lengths, so that a memory checker sees
   what the canaries do not. */
static void call(uint64_t version, const char *about, const uint8_t *input, size_t input_len, uint32_t mode, size_t room,
                 uint32_t answer, const uint8_t *text, size_t needed)
{
	uint8_t *own = input_len > 0 ? memcpy(block(input_len), input, input_len) : one_byte;
	uint8_t *fenced = block(CANARY + room + CANARY);
	uint8_t *lent = room > 0 ? fenced + CANARY : one_byte;
	size_t written = answer == MASM_PRINTED ? needed : 0;
	size_t length = answer == MASM_PRINTED || answer == MASM_NO_ROOM ? needed : 0;
	char what[160];
	uint64_t returned;
	size_t i;
	int before = 1, past = 1, after = 1;

	if (version == LISTING)
		snprintf(what, sizeof what, "%s, mode %lu, room %lu", about, (unsigned long)mode, (unsigned long)room);
	else
		snprintf(what, sizeof what, "%s, version %lu, mode %lu, room %lu", about, (unsigned long)version, (unsigned long)mode,
		         (unsigned long)room);
	for (i = 0; i < CANARY + room + CANARY; i++)
		fenced[i] = canary(i);
	returned = print(version, own, input_len, mode, lent, room);

	check(masm_answer(returned) == answer, "%s: answer %lu instead of %lu", what, (unsigned long)masm_answer(returned),
	      (unsigned long)answer);
	check(masm_length(returned) == length, "%s: length %lu instead of %lu", what, (unsigned long)masm_length(returned),
	      (unsigned long)length);
	check(returned == (uint64_t)answer * UINT64_C(4294967296) + length, "%s: the two halves do not make up what was returned", what);

	for (i = 0; i < CANARY; i++)
		before &= fenced[i] == canary(i);
	for (i = CANARY + written; i < CANARY + room; i++)
		past &= fenced[i] == canary(i);
	for (i = CANARY + room; i < CANARY + room + CANARY; i++)
		after &= fenced[i] == canary(i);
	check(before, "%s: bytes before the buffer changed", what);
	check(past, "%s: bytes past the printed length changed", what);
	check(after, "%s: bytes after the buffer changed", what);
	check(written == 0 || memcmp(fenced + CANARY, text, written) == 0, "%s: `%.*s` instead of `%.*s`", what, (int)written,
	      (const char *)fenced + CANARY, (int)written, (const char *)text);
	check(input_len == 0 || memcmp(own, input, input_len) == 0, "%s: the input changed", what);
	check(one_byte[0] == 0x5A, "%s: the byte after a pointer of length 0 changed", what);

	free(fenced);
	if (input_len > 0)
		free(own);
}

/* The outcome in all rooms that make a difference. */
static void outcome(uint64_t version, const char *about, const uint8_t *input, size_t input_len, uint32_t mode, uint32_t answer,
                    const uint8_t *text, size_t needed)
{
	if (answer == MASM_PRINTED) {
		call(version, about, input, input_len, mode, needed + AMPLE, MASM_PRINTED, text, needed);
		call(version, about, input, input_len, mode, needed, MASM_PRINTED, text, needed);
		if (needed > 0) {
			call(version, about, input, input_len, mode, needed - 1, MASM_NO_ROOM, text, needed);
			call(version, about, input, input_len, mode, 0, MASM_NO_ROOM, text, needed);
		}
	} else {
		call(version, about, input, input_len, mode, AMPLE, answer, NULL, 0);
		call(version, about, input, input_len, mode, 1, answer, NULL, 0);
		call(version, about, input, input_len, mode, 0, answer, NULL, 0);
	}
}

/* Answer 1, before all others: with room and without. */
static void bad_mode(uint64_t version, const char *about, const uint8_t *input, size_t input_len, uint32_t mode)
{
	call(version, about, input, input_len, mode, AMPLE, MASM_BAD_MODE, NULL, 0);
	call(version, about, input, input_len, mode, 0, MASM_BAD_MODE, NULL, 0);
}

/* In modes that are none. */
static void bad_modes(uint64_t version, const char *about, const uint8_t *input, size_t input_len)
{
	call(version, about, input, input_len, MODES, AMPLE, MASM_BAD_MODE, NULL, 0);
	bad_mode(version, about, input, input_len, UINT32_MAX);
}

/* ---- all bodies that were tried: as one listing of each version, with the lines that it has to print in each mode */

struct bytes {
	uint8_t *at;
	size_t length, room;
};

static struct bytes listing[2], lines[2][MODES];

static void append(struct bytes *to, const void *from, size_t length)
{
	if (to->length + length > to->room) {
		uint8_t *larger = block(2 * (to->length + length));

		if (to->length > 0)
			memcpy(larger, to->at, to->length);
		free(to->at);
		to->at = larger;
		to->room = 2 * (to->length + length);
	}
	if (length > 0)
		memcpy(to->at + to->length, from, length);
	to->length += length;
}

static void append_line(struct bytes *to, uint32_t answer, const char *text)
{
	char refused[32];

	if (answer == MASM_PRINTED) {
		append(to, text, strlen(text));
	} else {
		snprintf(refused, sizeof refused, "; refused %u", (unsigned)answer);
		append(to, refused, strlen(refused));
	}
	append(to, "\n", 1);
}

static void append_body(struct bytes *to, const struct body *b)
{
	uint8_t frame[2];

	put_word(frame, (uint32_t)b->length);
	append(to, frame, 2);
	append(to, b->bytes, b->length);
}

static size_t length_of(const char *text)
{
	return text != NULL ? strlen(text) : 0;
}

/* The line of mode 2: that of mode 1, with start address plus length plus distance in place of $ and what follows. */
static const char *target_of(const struct body *b, uint32_t start, const char *straight, char room[AMPLE])
{
	const char *dollar = straight != NULL ? strchr(straight, '$') : NULL;
	uint32_t distance = dword_at(b->bytes + 5), target;

	if (dollar == NULL)
		return straight;
	if (b->bytes[14] == 3)
		distance = (distance & 0x7F) - (distance & 0x80);
	target = start + b->bytes[3] + distance;
	snprintf(room, AMPLE, "%.*s%s%08lXh", (int)(dollar - straight), straight, target >= UINT32_C(0xA0000000) ? "0" : "",
	         (unsigned long)target);
	return room;
}

/* A body in version 2 with this start address, in each mode. */
static void body_from(const struct body *b, uint32_t start, uint32_t answer, const char *const text[MODES])
{
	struct body second = started(b, start);
	uint32_t mode;

	append_body(&listing[1], &second);
	for (mode = 0; mode < MODES; mode++) {
		outcome(MASM_VERSION_2, b->about, second.bytes, second.length, mode, answer, (const uint8_t *)text[mode],
		        length_of(text[mode]));
		append_line(&lines[1][mode], answer, text[mode]);
	}
	bad_modes(MASM_VERSION_2, b->about, second.bytes, second.length);
}

/* A body in both versions and all modes: the line of the modes 0 and 1, or NULL and the answer that refuses it. A
   branch is tried from every start address below, any other body from one of them. */
static void body_in_modes(const struct body *b, uint32_t answer, const char *crate, const char *straight)
{
	static const uint32_t starts[] = {UINT32_C(0x00401000), 0, UINT32_MAX, UINT32_C(0x80000000), UINT32_C(0x9FFFFF80), 0x7F};
	static const uint32_t none[] = {0, 3, UINT32_MAX};
	static unsigned turn;
	struct body second = started(b, 0);
	const char *text[MODES];
	char room[AMPLE];
	unsigned count = sizeof starts / sizeof starts[0], k;
	uint32_t mode;

	text[0] = crate;
	text[1] = straight;
	append_body(&listing[0], b);
	for (mode = 0; mode < 2; mode++) {
		outcome(MASM_VERSION_1, b->about, b->bytes, b->length, mode, answer, (const uint8_t *)text[mode], length_of(text[mode]));
		append_line(&lines[0][mode], answer, text[mode]);
	}
	bad_mode(MASM_VERSION_1, b->about, b->bytes, b->length, MASM_MODE_TARGET);
	append_line(&lines[0][MASM_MODE_TARGET], MASM_BAD_MODE, NULL);
	bad_modes(MASM_VERSION_1, b->about, b->bytes, b->length);

	turn++;
	for (k = 0; k < count; k++) {
		if (k > 0 && (straight == NULL || strchr(straight, '$') == NULL))
			break;
		text[2] = target_of(b, starts[(turn + k) % count], straight, room);
		body_from(b, starts[(turn + k) % count], answer, text);
	}
	for (k = 0; k < sizeof none / sizeof none[0]; k++) {
		bad_mode(none[k], b->about, b->bytes, b->length, (turn + k) % MODES);
		call(none[k], b->about, second.bytes, second.length, turn % (MODES + 1), AMPLE, MASM_BAD_MODE, NULL, 0);
	}
}

static void prints(struct body b, const char *text)
{
	body_in_modes(&b, MASM_PRINTED, text, text);
}

static void prints_in_modes(struct body b, const char *crate, const char *straight)
{
	body_in_modes(&b, MASM_PRINTED, crate, straight);
}

static void refused(struct body b, uint32_t answer)
{
	body_in_modes(&b, answer, NULL, NULL);
}

/* ---- document 01, "Lines to compare" */

static struct body mov_from(const char *about, uint32_t disp)
{
	return with(with(record(about, MOV, 6, 4, 0, disp), 1, NONE, EAX, 0, 0), 12, NONE, EAX, 0, 0);
}

static struct body mov_absolute(const char *about, uint32_t disp)
{
	return with(with(record(about, MOV, 6, 4, 0, disp), 1, NONE, EAX, 0, 0), 9, NONE, 0, 0, 0);
}

static struct body branch(const char *about, unsigned opcode, unsigned kind, unsigned length, uint32_t distance)
{
	return with(record(about, opcode, length, 0, distance, 0), kind, NONE, 0, 0, 0);
}

static struct body jump(const char *about, unsigned kind, unsigned length, uint32_t distance)
{
	return branch(about, JMP, kind, length, distance);
}

static void lines_to_compare(void)
{
	prints(mov_from("the least displacement", UINT32_C(0x80000000)), "mov eax, dword ptr [eax - 80000000h]");
	prints(mov_from("displacement 9", 9), "mov eax, dword ptr [eax + 9]");
	prints(mov_from("displacement 10", 10), "mov eax, dword ptr [eax + 0Ah]");
	prints(mov_from("displacement -160", UINT32_C(0) - 160), "mov eax, dword ptr [eax - 0A0h]");

	prints(with(record("push -1", PUSH, 2, 4, UINT32_MAX, 0), 3, NONE, 0, 0, 0), "push 0FFFFFFFFh");

	prints_in_modes(jump("short jump, 125", 3, 2, 125), "jmp $+7Fh", "jmp short $+7Fh");
	prints_in_modes(jump("short jump, 126", 3, 2, 126), "jmp $-80h", "jmp short $+80h");
	prints_in_modes(jump("long jump, 20", 5, 5, 20), "jmp $+19h", "jmp near ptr $+19h");
	prints_in_modes(jump("long jump, 122", 5, 5, 122), "jmp $+7Fh", "jmp near ptr $+7Fh");
	prints_in_modes(jump("long jump, 123", 5, 5, 123), "jmp near ptr $+80h", "jmp near ptr $+80h");
	prints_in_modes(jump("long jump, 250", 5, 5, 250), "jmp near ptr $+0FFh", "jmp near ptr $+0FFh");
	prints_in_modes(jump("long jump, 251", 5, 5, 251), "jmp $+100h", "jmp near ptr $+100h");
	prints_in_modes(jump("long jump, 2147483647", 5, 5, UINT32_C(2147483647)), "jmp $-7FFFFFFCh",
	                "jmp near ptr $-7FFFFFFCh");
	prints_in_modes(branch("call, 123", CALL, 5, 5, 123), "call near ptr $+80h", "call $+80h");
	prints_in_modes(branch("short call, 126", CALL, 3, 2, 126), "call $-80h", "call $+80h");
	prints_in_modes(branch("xbegin, 122", XBEGIN, 5, 6, 122), "xbegin near ptr $+80h", "xbegin $+80h");
	prints_in_modes(branch("xbegin, kind 3", XBEGIN, 3, 6, 122), "xbegin 7Ah", "xbegin 7Ah");
	prints_in_modes(branch("long loop, 5", LOOP, 5, 6, 5), "loop $+0Bh", "loop near ptr $+0Bh");

	prints(with(record("aam of 10", AAM, 2, 0, 10, 0), 6, NONE, 0, 0, 0), "aam");
	prints(with(record("aam of 266", AAM, 2, 0, 266, 0), 6, NONE, 0, 0, 0), "aam 0Ah");

	prints(with(with(record("fld of st(0)", FLD, 2, 0, 0, 0), 1, NONE, ST0, 0, 0), 2, NONE, ST0, 0, 0), "fld st");
	prints(with(record("fst of st(0)", FST, 2, 0, 0, 0), 2, NONE, ST0, 0, 0), "fst st(0)");

	prints(with(record("fxsave of 63 bytes", FXSAVE, 4, 63, 0, 0), 11, FS, ECX, 0, 0), "fxsave fs:[ecx]");
	prints(with(with(record("lsl eax, dx", LSL, 3, 4, 0, 0), 1, NONE, EAX, 0, 0), 2, NONE, DX, 0, 0), "lsl eax, edx");
	prints(with(with(record("movs from ds", MOVS, 1, 1, 0, 0), 11, ES, EDI, 0, 0), 11, DS, ESI, 0, 0),
	       "movs byte ptr es:[edi], byte ptr [esi]");

	prints(mov_absolute("absolute ABCD", 0xABCD), "mov eax, dword ptr [0ABCDh]");
	prints(mov_absolute("absolute ABC", 0xABC), "mov eax, dword ptr [0ABCh]");

	prints_in_modes(jump("instruction length 15", 3, 15, 0), "jmp $+0Fh", "jmp short $+0Fh");
	refused(jump("instruction length 0", 3, 0, 0), MASM_BAD_FIELD);
	refused(jump("instruction length 16", 3, 16, 0), MASM_BAD_FIELD);
}

/* ---- bodies of every length from 0 to 40, and of 1289, with every count; the same with masks, and of 1546 */

/* A body of this length and count: of registers, five bytes each, or of memory with masks, six bytes each and two more. */
static void body_length(int masks, unsigned length, unsigned count)
{
	static const char *const text[2][5] = {
	    {"mov", "mov eax", "mov eax, ecx", "mov eax, ecx, edx", "mov eax, ecx, edx, ebx"},
	    {"mov", "mov dword ptr [eax]{k1}", "mov dword ptr [eax]{k1}, dword ptr [ecx]{k1}",
	     "mov dword ptr [eax]{k1}, dword ptr [ecx]{k1}, dword ptr [edx]{k1}",
	     "mov dword ptr [eax]{k1}, dword ptr [ecx]{k1}, dword ptr [edx]{k1}, dword ptr [ebx]{k1}"}};
	unsigned size = masks ? 6 : 5, right = 14 + size * count, k;
	char about[64];
	struct body b;

	snprintf(about, sizeof about, "a body of %u bytes, count %u%s", length, count, masks ? ", with masks" : "");
	b = record(about, MOV, 2, 4, 0, 0);
	for (k = 0; k < 255; k++) {
		b.bytes[14 + size * k] = masks ? 17 : 1;
		b.bytes[14 + size * k + 2] = (uint8_t)(k % 4);
		if (masks)
			b.bytes[14 + size * k + 5] = K1;
	}
	if (masks && count > 0) {
		b.bytes[right++] = 0;
		b.bytes[right++] = 0;
	}
	b.bytes[13] = (uint8_t)count;
	b.length = length;
	if (length != right)
		refused(b, MASM_BAD_LENGTH);
	else if (count > 4)
		refused(b, MASM_BAD_FIELD);
	else
		prints(b, text[masks][count]);
}

static void body_lengths(void)
{
	struct body b;
	char about[64];
	unsigned which, length, count;

	for (which = 0; which <= 42; which++) {
		length = which <= 40 ? which : which == 41 ? PLAIN_MAX : BODY_MAX;
		for (count = 0; count < 256; count++) {
			if (length < 14 && count > 0)
				break; /* the count is not stored */
			body_length(0, length, count);
			body_length(1, length, count);
		}
		/* and all bytes 0, whose instruction length is outside the rules */
		snprintf(about, sizeof about, "%u bytes 0", length);
		b = record(about, 0, 0, 0, 0, 0);
		b.length = length;
		refused(b, length == 14 ? MASM_BAD_FIELD : MASM_BAD_LENGTH);
	}
}

/* Bodies that are right in the other version, or short by what version 2 has more. */
static void lengths_of_versions(void)
{
	struct body b = record("nop", NOP, 1, 0, 0, 0), second = started(&b, UINT32_C(0x00401000));
	uint32_t mode;

	for (mode = 0; mode < MODES; mode++) {
		b = second;
		for (b.length = 0; b.length < 18; b.length++)
			outcome(MASM_VERSION_2, "a body under 18 bytes", b.bytes, b.length, mode, MASM_BAD_LENGTH, NULL, 0);
		outcome(MASM_VERSION_2, "a body of 18 bytes", b.bytes, b.length, mode, MASM_PRINTED, (const uint8_t *)"nop", 3);
		b.length++;
		outcome(MASM_VERSION_2, "a body of 19 bytes", b.bytes, b.length, mode, MASM_BAD_LENGTH, NULL, 0);
		b = with(record("push of version 1", PUSH, 2, 4, 5, 0), 3, NONE, 0, 0, 0);
		outcome(MASM_VERSION_2, b.about, b.bytes, b.length, mode, MASM_BAD_LENGTH, NULL, 0);
		b = started(&b, UINT32_C(0x00401000));
		outcome(MASM_VERSION_2, b.about, b.bytes, b.length, mode, MASM_PRINTED, (const uint8_t *)"push 5", 6);
		if (mode < 2)
			outcome(MASM_VERSION_1, "push of version 2", b.bytes, b.length, mode, MASM_BAD_LENGTH, NULL, 0);
		else
			bad_mode(MASM_VERSION_1, "push of version 2", b.bytes, b.length, mode);
	}
}

/* ---- every refusal, and which one goes first */

static void refusals(void)
{
	struct body b;

	b = flagged(record("the longest plain line", MOVS, 15, 16, 0, UINT32_C(0x80000000)), XACQUIRE | XRELEASE | LOCK | REPNZ);
	b = with(with(b, 16, FS, EAX, ECX, 8), 16, FS, EAX, ECX, 8);
	b = with(with(b, 16, FS, EAX, ECX, 8), 16, FS, EAX, ECX, 8);
	prints(b, "xacquire xrelease lock repne movs xmmword ptr fs:[eax + ecx * 8 - 80000000h], "
	          "xmmword ptr fs:[eax + ecx * 8 - 80000000h], xmmword ptr fs:[eax + ecx * 8 - 80000000h], "
	          "xmmword ptr fs:[eax + ecx * 8 - 80000000h]");

	refused(record("opcode 176", OPCODES, 2, 0, 0, 0), MASM_BAD_FIELD);
	refused(flagged(record("flag 6, not extended", MOV, 2, 0, 0, 0), 0x40), MASM_BAD_FIELD);
	refused(flagged(record("flag 7", MOV, 2, 0, 0, 0), 0x80), MASM_BAD_FIELD);
	refused(with(record("kind 0", MOV, 2, 0, 0, 0), 0, 0, 0, 0, 0), MASM_BAD_FIELD);
	refused(with(record("kind 23", MOV, 2, 0, 0, 0), 23, 0, 0, 0, 0), MASM_BAD_FIELD);
	refused(with(record("register byte 30", MOV, 2, 0, 0, 0), 1, 0, 30, 0, 0), MASM_BAD_FIELD);
	refused(with(record("register byte 31", MOV, 2, 0, 0, 0), 1, 0, 31, 0, 0), MASM_BAD_FIELD);
	refused(with(record("register byte 64, not extended", MOV, 2, 0, 0, 0), 2, 0, ZMM0, 0, 0), MASM_BAD_FIELD);
	refused(with(record("register byte 72, not extended", MOV, 2, 0, 0, 0), 1, 0, K0, 0, 0), MASM_BAD_FIELD);
	refused(with(record("a base of 8 bits", MOV, 2, 4, 0, 0), 11, 0, 16, 0, 0), MASM_BAD_FIELD);
	refused(with(record("scale 3", MOV, 2, 4, 0, 0), 13, 0, EAX, 0, 3), MASM_BAD_FIELD);
	refused(with(record("segment 7", MOV, 2, 4, 0, 0), 11, 7, EAX, 0, 0), MASM_BAD_FIELD);
	refused(with(record("an unused byte", MOV, 2, 4, 0, 0), 3, 0, 0, 0, 1), MASM_BAD_FIELD);

	refused(with(record("sgdt of a register", SGDT, 3, 4, 0, 0), 1, NONE, EAX, 0, 0), MASM_BAD_SHAPE);
	refused(with(with(record("lods of a register", LODS, 1, 1, 0, 0), 1, NONE, 16, 0, 0), 1, NONE, ESI, 0, 0), MASM_BAD_SHAPE);
	refused(record("fadd of nothing", FADD, 2, 0, 0, 0), MASM_BAD_SHAPE);
	refused(with(record("mov of 3 bytes", MOV, 2, 3, 0, 0), 11, NONE, EAX, 0, 0), MASM_BAD_SIZE);
	refused(with(with(record("lss of 2 bytes", LSS, 3, 2, 0, 0), 1, NONE, EAX, 0, 0), 11, NONE, ECX, 0, 0), MASM_BAD_SIZE);
	prints(with(with(record("lods from fs", LODS, 1, 1, 0, 0), 1, NONE, 16, 0, 0), 11, FS, ESI, 0, 0), "lods byte ptr [esi]");
	prints(with(with(record("movs to ds", MOVS, 1, 1, 0, 0), 11, DS, EDI, 0, 0), 11, DS, ESI, 0, 0),
	       "movs byte ptr ds:[edi], byte ptr [esi]");
	prints(with(record("xbegin with 8 bits", XBEGIN, 6, 0, 5, 0), 3, NONE, 0, 0, 0), "xbegin 5");

	/* the first that applies; every one of these is also tried in other versions and modes (1) and in no room (6) */
	b = record("a length and a field", OPCODES, 0, 0, 0, 0);
	b.length = 15;
	refused(b, MASM_BAD_LENGTH);
	refused(with(record("a field and a shape", SGDT, 0, 3, 0, 0), 1, NONE, EAX, 0, 0), MASM_BAD_FIELD);
	refused(with(with(record("a shape and a size", LSS, 3, 3, 0, 0), 1, NONE, EAX, 0, 0), 1, NONE, EAX, 0, 0), MASM_BAD_SHAPE);
	refused(with(record("a shape and a size in the general path", LSL, 3, 3, 0, 0), 11, NONE, EAX, 0, 0), MASM_BAD_SHAPE);
}

/* ---- document 02, W-204: vector records */

/* VADDPD with this register and a memory operand that is broadcast. */
static struct body vaddpd(const char *about, unsigned before, unsigned size)
{
	return ends(with(with(flagged(record(about, VADDPD, 6, size, 0, 0), BROADCAST), 1, NONE, before, 0, 0), 11, NONE, EAX, 0, 0), 0, 0);
}

/* VCVTNEPS2BF16 with all that a line can have: with masks the longest line, without them the most text for its bytes. */
static struct body decorated(const char *about, int masks)
{
	struct body b = record(about, VCVTNEPS2BF16, 15, 16, 0, UINT32_C(0x80000000));
	int k;

	b = flagged(b, XACQUIRE | XRELEASE | LOCK | BROADCAST);
	for (k = 0; k < 4; k++)
		b = masks ? masked(b, 22, FS, EAX, ECX, 8, K1) : with(b, 16, FS, EAX, ECX, 8);
	return ends(b, 2, 2);
}

static void vector_records(void)
{
	static const char *const rounding[4] = {"rn", "rd", "ru", "rz"};
	static const unsigned few[4] = {2, 4, 8, 4};
	static const char longest[] =
	    "xacquire xrelease lock vcvtneps2bf16 xmmword ptr fs:[eax + ecx * 8 - 80000000h]{k1}, "
	    "xmmword ptr fs:[eax + ecx * 8 - 80000000h]{k1}{1to16}, xmmword ptr fs:[eax + ecx * 8 - 80000000h]{k1}{1to16}, "
	    "xmmword ptr fs:[eax + ecx * 8 - 80000000h]{k1}{1to16} {ru-sae}";
	struct body b;
	char text[MASM_LINE_MAX];
	unsigned bits;

	/* masks */
	b = with(record("a mask", MOV, 7, 4, 0, 4), 1, NONE, EAX, 0, 0);
	prints(ends(masked(b, 18, NONE, EAX, 0, 0, K1), 0, 0), "mov eax, dword ptr [eax + 4]{k1}");
	b = record("a mask after all parts of a bracket", MOV, 9, 4, 0, UINT32_C(0) - 16);
	prints(ends(with(masked(b, 22, FS, EBX, ESI, 4, K7), 2, NONE, EAX, 0, 0), 0, 0), "mov dword ptr fs:[ebx + esi * 4 - 10h]{k7}, eax");
	b = with(record("a mask without a label", LEA, 4, 0, 0, 0), 1, NONE, EAX, 0, 0);
	prints(ends(masked(b, 17, FS, ECX, 0, 0, K1), 1, 2), "lea eax, [ecx]{k1}");
	prints(ends(with(with(record("mask registers", VCVTPD2PS, 6, 0, 0, 0), 1, NONE, K0, 0, 0), 2, NONE, ZMM0, 0, 0), 0, 0),
	       "vcvtpd2ps k0, zmm0");
	refused(ends(masked(record("k0 as a mask", MOV, 6, 4, 0, 0), 17, NONE, EAX, 0, 0, K0), 0, 0), MASM_BAD_FIELD);
	refused(ends(masked(record("80 as a mask", MOV, 6, 4, 0, 0), 17, NONE, EAX, 0, 0, 80), 0, 0), MASM_BAD_FIELD);

	/* VPSCATTER: operand 1 is the mask, k0 too */
	b = with(record("vpscatterdd", VPSCATTERDD, 7, 4, 0, 0), 15, NONE, EAX, ZMM0 + 1, 4);
	prints(ends(with(with(b, 2, NONE, K1, 0, 0), 1, NONE, ZMM0 + 2, 0, 0), 0, 0), "vpscatterdd dword ptr [eax + zmm1 * 4]{k1}, zmm2");
	b = with(record("vpscatterqq, k0", VPSCATTERQQ, 7, 0, 0, UINT32_C(0) - 1), 14, FS, XMM7, 0, 1);
	prints(ends(with(with(b, 1, NONE, K0, 0, 0), 1, NONE, YMM0, 0, 0), 3, 2), "vpscatterqq qword ptr [xmm7 - 1]{k0}, ymm0");
	b = with(with(record("vpscatterdd without operand 2", VPSCATTERDD, 7, 4, 0, 0), 11, NONE, EAX, 0, 0), 2, NONE, K1, 0, 0);
	refused(ends(b, 0, 0), MASM_BAD_SHAPE);
	b = with(with(record("vpscatterdd, operand 1 is no mask", VPSCATTERDD, 7, 4, 0, 0), 11, NONE, EAX, 0, 0), 2, NONE, ZMM0, 0, 0);
	refused(ends(with(b, 1, NONE, ZMM0, 0, 0), 0, 0), MASM_BAD_SHAPE);
	b = masked(record("vpscatterdd with two masks", VPSCATTERDD, 7, 4, 0, 0), 17, NONE, EAX, 0, 0, K1);
	refused(ends(with(with(b, 2, NONE, K1, 0, 0), 1, NONE, ZMM0, 0, 0), 0, 0), MASM_BAD_SHAPE);
	b = with(record("a vector as index, not of vpscatter", VADDPD, 7, 8, 0, 0), 15, NONE, EAX, ZMM0, 4);
	refused(ends(b, 0, 0), MASM_BAD_FIELD);
	b = with(record("a vector as base", VPSCATTERDD, 7, 4, 0, 0), 15, NONE, ZMM0, EAX, 4);
	refused(ends(with(with(b, 2, NONE, K1, 0, 0), 1, NONE, ZMM0, 0, 0), 0, 0), MASM_BAD_FIELD);

	/* {1toN} */
	b = with(with(record("a mask and a broadcast", VADDPD, 6, 8, 0, 0), 1, NONE, ZMM0 + 1, 0, 0), 1, NONE, ZMM0 + 2, 0, 0);
	prints(ends(masked(flagged(b, BROADCAST), 17, NONE, EBX, 0, 0, K1), 0, 0), "vaddpd zmm1, zmm2, qword ptr [ebx]{k1}{1to8}");
	b = ends(masked(with(record("a broadcast of mov", MOV, 6, 4, 0, 0), 1, NONE, ZMM0, 0, 0), 17, NONE, EAX, 0, 0, K1), 0, 0);
	prints(flagged(b, BROADCAST), "mov zmm0, dword ptr [eax]{k1}{1to16}");
	for (bits = 0; bits < 4; bits++) {
		b = flagged(record("a broadcast by the length bits", VCVTPD2PS, 6, 4, 0, 0), BROADCAST);
		snprintf(text, sizeof text, "vcvtpd2ps ymm0, dword ptr [ecx]{1to%u}", few[bits]);
		prints(ends(with(with(b, 1, NONE, YMM0, 0, 0), 11, NONE, ECX, 0, 0), bits, 0), text);
		b = flagged(record("a broadcast of singles", VCVTNEPS2BF16, 6, 4, 0, 0), BROADCAST);
		snprintf(text, sizeof text, "vcvtneps2bf16 ymm0, dword ptr [ecx]{1to%u}", 2 * few[bits]);
		prints(ends(with(with(b, 1, NONE, YMM0, 0, 0), 11, NONE, ECX, 0, 0), bits, 0), text);
	}
	prints(vaddpd("a broadcast of 16", YMM0, 2), "vaddpd ymm0, word ptr [eax]{1to16}");
	prints(vaddpd("a broadcast rounded down", ST0, 4), "vaddpd st(0), dword ptr [eax]{1to2}");
	prints(vaddpd("a broadcast of 0", EAX, 8), "vaddpd eax, qword ptr [eax]{1to0}");
	refused(vaddpd("a broadcast of 32, by bytes", YMM0, 1), MASM_BAD_BROADCAST);
	refused(vaddpd("a broadcast of 32, by words", ZMM0, 2), MASM_BAD_BROADCAST);
	refused(vaddpd("a size and a broadcast", ZMM0, 3), MASM_BAD_SIZE);
	b = masked(with(record("a broadcast that is not shown", NOP, 6, 1, 0, 0), 1, NONE, ZMM0, 0, 0), 17, NONE, EAX, 0, 0, K1);
	prints(ends(flagged(b, BROADCAST), 0, 2), "nop");
	refused(flagged(ends(record("flag 7, extended", VADDPD, 6, 0, 0, 0), 0, 0), 0x80), MASM_BAD_FIELD);

	/* the tail */
	b = with(with(record("a tail", VADDPD, 6, 0, 0, 0), 1, NONE, ZMM0, 0, 0), 2, NONE, ZMM0 + 1, 0, 0);
	prints(ends(b, 0, 0), "vaddpd zmm0, zmm1");
	for (bits = 0; bits < 4; bits++) {
		prints(ends(b, bits, 1), "vaddpd zmm0, zmm1 {sae}");
		snprintf(text, sizeof text, "vaddpd zmm0, zmm1 {%s-sae}", rounding[bits]);
		prints(ends(b, bits, 2), text);
	}
	prints(ends(record("a tail without an operand", VADDPD, 6, 0, 0, 0), 0, 2), "vaddpd");
	refused(ends(record("length bits 4", VADDPD, 6, 0, 0, 0), 4, 0), MASM_BAD_FIELD);
	refused(ends(record("tail 3", VADDPD, 6, 0, 0, 0), 0, 3), MASM_BAD_FIELD);

	/* lengths: the two bytes belong to the opcode, or to a kind that is stored */
	refused(record("vaddpd without its two bytes", VADDPD, 6, 0, 0, 0), MASM_BAD_LENGTH);
	b = ends(record("vaddpd short of one byte", VADDPD, 6, 0, 0, 0), 0, 0);
	b.length--;
	refused(b, MASM_BAD_LENGTH);
	refused(masked(record("a mask without the two bytes", MOV, 6, 4, 0, 0), 17, NONE, EAX, 0, 0, K1), MASM_BAD_LENGTH);
	refused(with(record("a masked kind of five bytes", MOV, 6, 4, 0, 0), 17, NONE, EAX, 0, 0), MASM_BAD_LENGTH);
	refused(ends(with(record("two bytes too many", MOV, 6, 4, 0, 0), 1, NONE, EAX, 0, 0), 0, 0), MASM_BAD_LENGTH);

	/* the longest line, which a buffer of 256 bytes does not hold */
	b = decorated("the longest line", 1);
	prints(b, longest);
	check(sizeof longest - 1 == 257, "the longest line has %lu bytes", (unsigned long)(sizeof longest - 1));
	call(MASM_VERSION_1, b.about, b.bytes, b.length, MASM_MODE_STRAIGHT, 256, MASM_NO_ROOM, (const uint8_t *)longest, 257);
	call(MASM_VERSION_1, b.about, b.bytes, b.length, MASM_MODE_STRAIGHT, MASM_LINE_MAX, MASM_PRINTED, (const uint8_t *)longest, 257);
	b = started(&b, UINT32_MAX);
	call(MASM_VERSION_2, b.about, b.bytes, b.length, MASM_MODE_TARGET, 256, MASM_NO_ROOM, (const uint8_t *)longest, 257);
	call(MASM_VERSION_2, b.about, b.bytes, b.length, MASM_MODE_TARGET, MASM_LINE_MAX, MASM_PRINTED, (const uint8_t *)longest, 257);
}

/* ---- document 02, W-205: where a branch goes. These lines are written out, not reckoned. */

static void goes_to(struct body b, uint32_t start, const char *crate, const char *straight, const char *target)
{
	const char *text[MODES];

	text[0] = crate;
	text[1] = straight;
	text[2] = target;
	body_from(&b, start, MASM_PRINTED, text);
}

static void targets(void)
{
	struct body b;

	/* the three of the proofs' table */
	goes_to(jump("kind 3, back past 0", 3, 2, 0xFC), 0, "jmp $-2", "jmp short $-2", "jmp short 0FFFFFFFEh");
	goes_to(jump("kind 5, ahead past 2^32", 5, 5, 32), UINT32_C(0xFFFFFFF0), "jmp $+25h", "jmp near ptr $+25h", "jmp near ptr 00000015h");
	goes_to(branch("a call with a leading 0", CALL, 5, 5, UINT32_C(0xFFBFEF7B)), UINT32_C(0x00401000), "call $-401080h", "call $-401080h",
	        "call 0FFFFFF80h");

	/* the distance of kind 3 is signed in 8 bits, and its sum is not cut to them */
	goes_to(jump("short jump, 126, from an address", 3, 2, 126), UINT32_C(0x00400F99), "jmp $-80h", "jmp short $+80h", "jmp short 00401019h");
	goes_to(jump("short jump, -128", 3, 2, 0x80), UINT32_C(0x00401000), "jmp $-7Eh", "jmp short $-7Eh", "jmp short 00400F82h");
	goes_to(jump("short jump, the low 8 bits of imm", 3, 2, UINT32_C(0xABCDEF10)), 0x10, "jmp $+12h", "jmp short $+12h", "jmp short 00000022h");
	goes_to(jump("the longest instruction", 3, 15, 127), UINT32_C(0xFFFFFFFF), "jmp $-72h", "jmp short $+8Eh", "jmp short 0000008Dh");

	/* around the ends of 32 bits, and each first digit that wants a 0 */
	goes_to(branch("to 0", JZ, 5, 6, UINT32_C(0xFFBFEFFA)), UINT32_C(0x00401000), "jz $-401000h", "jz near ptr $-401000h",
	        "jz near ptr 00000000h");
	goes_to(branch("to 2^32 - 1", JZ, 5, 6, UINT32_C(0xFFBFEFF9)), UINT32_C(0x00401000), "jz $-401001h", "jz near ptr $-401001h",
	        "jz near ptr 0FFFFFFFFh");
	goes_to(branch("to 9FFFFFFF", JG, 5, 6, 0), UINT32_C(0x9FFFFFF9), "jg $+6", "jg near ptr $+6", "jg near ptr 9FFFFFFFh");
	goes_to(branch("to A0000000", JG, 5, 6, 1), UINT32_C(0x9FFFFFF9), "jg $+7", "jg near ptr $+7", "jg near ptr 0A0000000h");
	goes_to(branch("to 0A000000", JG, 3, 2, 0), UINT32_C(0x09FFFFFE), "jg $+2", "jg short $+2", "jg short 0A000000h");

	/* no word */
	goes_to(branch("short call", CALL, 3, 2, 127), UINT32_C(0x9FFFFFFF), "call $-7Fh", "call $+81h", "call 0A0000080h");
	goes_to(branch("xbegin", XBEGIN, 5, 6, 122), UINT32_C(0x0ABCDEF0), "xbegin near ptr $+80h", "xbegin $+80h", "xbegin 0ABCDF70h");

	/* no target */
	goes_to(branch("xbegin of kind 3", XBEGIN, 3, 6, 122), UINT32_C(0x00401000), "xbegin 7Ah", "xbegin 7Ah", "xbegin 7Ah");
	b = with(record("jmp to a register", JMP, 2, 0, 0, 0), 2, NONE, EAX, 0, 0);
	goes_to(b, UINT32_C(0x00401000), "jmp eax", "jmp eax", "jmp eax");
	b = with(record("jmp through an absolute", JMP, 6, 4, 0, UINT32_C(0x00402000)), 10, NONE, 0, 0, 0);
	goes_to(b, UINT32_C(0x00401000), "jmp dword ptr [00402000h]", "jmp dword ptr [00402000h]", "jmp dword ptr [00402000h]");
	b = with(record("an immediate", PUSH, 5, 4, UINT32_C(0x00401000), 0), 5, NONE, 0, 0, 0);
	goes_to(b, UINT32_C(0x00401000), "push 401000h", "push 401000h", "push 401000h");
	b = with(jump("a second operand, which is dropped", 3, 2, 16), 5, NONE, 0, 0, 0);
	goes_to(b, UINT32_C(0x00401000), "jmp $+12h", "jmp short $+12h", "jmp short 00401012h");
}

/* ---- listings */

/* `text` in the modes 0 and 1, `target` in mode 2. */
static void prints_listing(const char *about, const uint8_t *input, size_t length, const char *text, const char *target)
{
	uint32_t mode;

	for (mode = 0; mode < MODES; mode++) {
		const char *line = mode == MASM_MODE_TARGET ? target : text;

		outcome(LISTING, about, input, length, mode, MASM_PRINTED, (const uint8_t *)line, strlen(line));
	}
	bad_modes(LISTING, about, input, length);
}

/* One listing of a record, a jump near ptr $+80h, and all that it can be cut to; `target` is its line in mode 2. */
static void small_listing(const uint8_t *whole, size_t size, const char *target)
{
	uint8_t twice[64];
	char about[64], both[128];
	size_t length;

	prints_listing("one record", whole, size, "jmp near ptr $+80h\n", target);
	prints_listing("a version byte alone", whole, 1, "", "");
	for (length = 2; length < size; length++) {
		snprintf(about, sizeof about, "the whole input cut to %u bytes", (unsigned)length);
		prints_listing(about, whole, length, "; cut\n", "; cut\n");
	}
	memcpy(twice, whole, size);
	memcpy(twice + size, whole + 1, size - 1);
	snprintf(both, sizeof both, "%s%s", target, target);
	prints_listing("two records", twice, 2 * size - 1, "jmp near ptr $+80h\njmp near ptr $+80h\n", both);
	snprintf(both, sizeof both, "%s; cut\n", target);
	for (length = size + 1; length < 2 * size - 1; length++) {
		snprintf(about, sizeof about, "two records cut to %u bytes", (unsigned)length);
		prints_listing(about, twice, length, "jmp near ptr $+80h\n; cut\n", both);
	}
}

static void small_listings(void)
{
	static const uint8_t whole[22] = {0x01, 0x00, 0x13, 0x00, 0x00, 0x00, 0x05, 0x00, 0x00, 0x00, 0x00,
	                                  0x7B, 0x00, 0x00, 0x00, 0x00, 0x01, 0x05, 0x00, 0x00, 0x00, 0x00};
	static const uint8_t second[26] = {0x02, 0x00, 0x17, 0x00, 0x00, 0x00, 0x05, 0x89, 0xAB, 0xCD, 0xEF, 0x00, 0x00,
	                                   0x00, 0x00, 0x7B, 0x00, 0x00, 0x00, 0x00, 0x01, 0x05, 0x00, 0x00, 0x00, 0x00};
	static const unsigned others[] = {0, 3, 4, 0x10, 0x7F, 0x80, 0xFF};
	uint8_t bad[5] = {1, 0, 2, 0, 0}, mixed[26];
	char about[64];
	unsigned k;

	/* document 01's whole input, and the same from 89ABCDEFh */
	small_listing(whole, sizeof whole, "; refused 1\n");
	small_listing(second, sizeof second, "jmp near ptr 89ABCE6Fh\n");
	prints_listing("an empty listing", NULL, 0, "; cut\n", "; cut\n");
	for (bad[0] = 1; bad[0] < 3; bad[0]++) {
		const char *target = bad[0] == 1 ? "; refused 1\n" : "; refused 2\n";

		bad[2] = 2;
		prints_listing("a record of 2 bytes", bad, sizeof bad, "; refused 2\n", target);
		bad[2] = 0;
		prints_listing("a record of 0 bytes", bad, 3, "; refused 2\n", target);
	}
	/* the version byte alone says how a body is read */
	memcpy(mixed, whole, sizeof whole);
	mixed[0] = 2;
	prints_listing("a body of version 1 in a listing of version 2", mixed, sizeof whole, "; refused 2\n", "; refused 2\n");
	memcpy(mixed, second, sizeof second);
	mixed[0] = 1;
	prints_listing("a body of version 2 in a listing of version 1", mixed, sizeof second, "; refused 2\n", "; refused 1\n");
	for (k = 0; k < sizeof others / sizeof others[0]; k++) {
		mixed[0] = (uint8_t)others[k];
		snprintf(about, sizeof about, "version byte %u", others[k]);
		prints_listing(about, mixed, sizeof second, "; version\n", "; version\n");
		prints_listing(about, mixed, 1, "; version\n", "; version\n");
	}
}

/* Frames longer than any record: the longest bodies of a right length, a byte more, and the longest frame there is. */
static void long_frames(void)
{
	static const size_t lengths[] = {BODY_MAX, BODY_MAX + START, BODY_MAX + START + 1, 65535};
	uint8_t *input = block(1 + 2 + 65535);
	unsigned version, k;

	for (version = 1; version < 3; version++)
		for (k = 0; k < sizeof lengths / sizeof lengths[0]; k++) {
			memset(input, 0, 3 + lengths[k]);
			input[0] = (uint8_t)version;
			put_word(input + 1, (uint32_t)lengths[k]);
			prints_listing("a long frame", input, 3 + lengths[k], "; refused 2\n", version == 1 ? "; refused 1\n" : "; refused 2\n");
			prints_listing("a long frame that is cut", input, 2 + lengths[k], "; cut\n", "; cut\n");
		}
	free(input);
}

/* All bodies so far, as one listing of each version: each line is the record entry's. */
static void the_same_as_one_listing(void)
{
	unsigned which;
	uint32_t mode;

	for (which = 0; which < 2; which++) {
		for (mode = 0; mode < MODES; mode++)
			outcome(LISTING, "all bodies as one listing", listing[which].at, listing[which].length, mode, MASM_PRINTED,
			        lines[which][mode].at, lines[which][mode].length);
		bad_modes(LISTING, "all bodies as one listing", listing[which].at, listing[which].length);
	}
}

/* A listing whose text is of `needed` bytes: asked for its length, and printed. `text` has a byte more. */
static void prints_long(const char *about, const uint8_t *input, size_t length, uint32_t mode, uint8_t *text, size_t needed)
{
	uint64_t returned = masm_print_listing(input, length, mode, one_byte, 0);

	check(masm_answer(returned) == MASM_NO_ROOM && masm_length(returned) == needed, "%s, no room: answer %lu, length %lu", about,
	      (unsigned long)masm_answer(returned), (unsigned long)masm_length(returned));
	text[needed] = 0x5A;
	returned = masm_print_listing(input, length, mode, text, needed);
	check(masm_answer(returned) == MASM_PRINTED && masm_length(returned) == needed, "%s: answer %lu, length %lu", about,
	      (unsigned long)masm_answer(returned), (unsigned long)masm_length(returned));
	check(text[needed] == 0x5A, "%s: the byte after the text changed", about);
}

/* A listing of this version and of 16777216 bytes, which are 8388607 frames of 0 bytes and half a length, in this mode:
   each frame prints `line`. A byte more is refused. */
static void the_most_records(unsigned version, uint32_t mode, const char *line, uint8_t *input, uint8_t *text)
{
	const size_t length = MASM_LISTING_MAX, empty = (length - 1) / 2;
	uint64_t returned;
	size_t i;
	int same = 1;

	input[0] = (uint8_t)version;
	check(12 * empty + 6 == 100663290, "the numbers of this test");
	prints_long("the most records", input, length, mode, text, 12 * empty + 6);
	for (i = 0; i < empty; i++)
		same &= memcmp(text + 12 * i, line, 12) == 0;
	same &= memcmp(text + 12 * empty, "; cut\n", 6) == 0;
	check(same, "the most records print something else, version %u, mode %lu", version, (unsigned long)mode);

	memset(text, 0x5A, 64);
	returned = masm_print_listing(input, length + 1, mode, text, 12 * empty);
	check(masm_answer(returned) == MASM_BAD_LENGTH && masm_length(returned) == 0, "a byte too many: answer %lu, length %lu",
	      (unsigned long)masm_answer(returned), (unsigned long)masm_length(returned));
	same = 1;
	for (i = 0; i < 64; i++)
		same &= text[i] == 0x5A;
	check(same, "a byte too many: the buffer changed");
	returned = masm_print_listing(input, length + 1, MODES, one_byte, 0);
	check(masm_answer(returned) == MASM_BAD_MODE && masm_length(returned) == 0, "a byte too many in mode 3: answer %lu, length %lu",
	      (unsigned long)masm_answer(returned), (unsigned long)masm_length(returned));
}

/* Exactly 16777216 bytes are printed, and one more is refused. Frames of 0 bytes are the most records
   that there can be, and the last listing has the longest text: the length returned has to hold it. */
static void the_longest_listing(void)
{
	static const char line[] =
	    "xacquire xrelease lock vcvtneps2bf16 xmmword ptr fs:[eax + ecx * 8 - 80000000h], "
	    "xmmword ptr fs:[eax + ecx * 8 - 80000000h]{1to16}, xmmword ptr fs:[eax + ecx * 8 - 80000000h]{1to16}, "
	    "xmmword ptr fs:[eax + ecx * 8 - 80000000h]{1to16} {ru-sae}\n";
	const size_t length = MASM_LISTING_MAX, most = 106844360, each = sizeof line - 1;
	struct body b = decorated("the line with the most text for its bytes", 0);
	size_t frame = 2 + b.length, full = (length - 1) / frame, i;
	uint8_t *input = block(length + 1), *text = block(most + 1);
	int same = 1;

	memset(input, 0, length + 1);
	the_most_records(1, MASM_MODE_TARGET, "; refused 1\n", input, text);
	the_most_records(1, MASM_MODE_STRAIGHT, "; refused 2\n", input, text);

	/* 441505 frames of 38 bytes, then twelve of 0 bytes and half a length, which are 0 already */
	for (i = 0; i < full; i++) {
		put_word(input + 1 + frame * i, (uint32_t)b.length);
		memcpy(input + 1 + frame * i + 2, b.bytes, b.length);
	}
	check(full == 441505 && each * full + 12 * 12 + 6 == most, "the numbers of this test");
	prints_long("the longest text", input, length, MASM_MODE_STRAIGHT, text, most);
	for (i = 0; i < full; i++)
		same &= memcmp(text + each * i, line, each) == 0;
	for (i = 0; i < 12; i++)
		same &= memcmp(text + each * full + 12 * i, "; refused 2\n", 12) == 0;
	same &= memcmp(text + each * full + 12 * 12, "; cut\n", 6) == 0;
	check(same, "the longest text is something else");
	free(input);
	free(text);
}

static void store(const char *stem, unsigned version, const char *ending, const struct bytes *what)
{
	char path[4096];
	FILE *file;

	snprintf(path, sizeof path, "%s%u.%s", stem, version, ending);
	file = fopen(path, "wb");
	if (file == NULL || fwrite(what->at, 1, what->length, file) != what->length || fclose(file) != 0) {
		fprintf(stderr, "host: %s cannot be written\n", path);
		exit(2);
	}
}

int main(int argc, char **argv)
{
	static const char *const modes[MODES] = {"crate", "straight", "target"};
	unsigned which, mode;

	if (argc > 2) {
		fprintf(stderr, "use: host_test [STEM]\n");
		return 2;
	}
	append(&listing[0], "\1", 1);
	append(&listing[1], "\2", 1);
	lines_to_compare();
	body_lengths();
	lengths_of_versions();
	refusals();
	vector_records();
	targets();
	small_listings();
	long_frames();
	the_same_as_one_listing();
	the_longest_listing();
	for (which = 0; which < 2; which++) {
		if (argc == 2)
			store(argv[1], which + 1, "lst", &listing[which]);
		free(listing[which].at);
		for (mode = 0; mode < MODES; mode++) {
			if (argc == 2)
				store(argv[1], which + 1, modes[mode], &lines[which][mode]);
			free(lines[which][mode].at);
		}
	}
	if (failures > 0) {
		printf("host: %lu checks, %lu fail\n", checks, failures);
		return 1;
	}
	printf("host: %lu checks, all hold\n", checks);
	return 0;
}
