/*
 * Measures how much stack the two entries take, and holds it to what the header says.
 *
 * The calls run in a thread whose stack is filled with one byte value before; what is changed below the
 * caller after them was used. The calls go through each opcode with each pair of kinds (of VPSCATTER with a
 * mask between the two), several sizes, both versions, all modes and a buffer without room, with exactly enough
 * and with plenty, first one by one and then as one listing of each version. The last line is `stack: ..` with
 * the numbers; exit status 1 if one is above the header's.
 */
#define _XOPEN_SOURCE 700
#include <pthread.h>
#include <stdio.h>
#include <stdlib.h>
#include <string.h>

#include "masm_listing.h"

enum {
	SAID = 8192,     /* what the header says */
	ROOM = 1 << 20,  /* the stack that is watched */
	FILL = 0xA5,
	VPSCATTER = 154, /* the first of four, and of the opcodes whose records are extended */
	OPCODES = 176,
	KINDS = 22,
	MASKED = 17,     /* the first kind with a mask */
	K1 = 73,
	SIZES = 2,
	BODY = 37,       /* in version 2: two operands of six bytes, one of five, and two bytes */
	START = 4,       /* the bytes of the start address, which stands after the first four */
	VERSIONS = 2,
	MODES = 3,
	BODIES = OPCODES * (KINDS + 1) * (KINDS + 1) * SIZES
};

static uint8_t *stack, *listing[VERSIONS], *text;
static size_t listing_len[VERSIONS], text_len;
static unsigned step;
static uintptr_t caller;

/* An operand of this kind that keeps the record rules; kind 0 is none. Extended records have more registers. */
static size_t operand(uint8_t *at, unsigned kind, unsigned number, int extended)
{
	unsigned form = kind >= MASKED ? kind - 6 : kind, reg = number % (extended ? 80 : 64);

	if (kind == 0)
		return 0;
	memset(at, 0, 6);
	at[0] = (uint8_t)kind;
	if (form >= 9)
		at[1] = 5;
	if (form <= 2)
		at[2] = (uint8_t)(reg == 30 || reg == 31 ? 0 : reg);
	if (form >= 11)
		at[2] = 1;
	if (form >= 15)
		at[3] = 2;
	if (form >= 13)
		at[4] = 8;
	if (kind < MASKED)
		return 5;
	at[5] = (uint8_t)(K1 + number % 7);
	return 6;
}

/* Body `which` of BODIES in this version; its length. */
static size_t body(uint8_t *at, unsigned which, unsigned version)
{
	static const uint8_t sizes[SIZES] = {8, 10};
	unsigned opcode = which / SIZES / (KINDS + 1) / (KINDS + 1);
	unsigned first = which / SIZES / (KINDS + 1) % (KINDS + 1);
	unsigned second = first == 0 ? 0 : which / SIZES % (KINDS + 1);
	int scatter = opcode >= VPSCATTER && opcode < VPSCATTER + 4 && first != 0;
	int extended = opcode >= VPSCATTER || first >= MASKED || second >= MASKED;
	size_t length = 14;

	memset(at, 0, BODY);
	at[0] = (uint8_t)(opcode >> 8);
	at[1] = (uint8_t)opcode;
	at[2] = extended ? 0x7F : 0x3F;
	at[3] = 15;
	at[4] = sizes[which % SIZES];
	at[5] = 0xF0;
	at[9] = 0x80;
	at[13] = (uint8_t)((first != 0) + scatter + (second != 0));
	length += operand(at + length, first, which, extended);
	if (scatter)
		length += operand(at + length, 1, K1, extended);
	length += operand(at + length, second, which / 7, extended);
	if (extended) {
		at[length++] = (uint8_t)(which % 4);
		at[length++] = 2;
	}
	if (version == MASM_VERSION_2) {
		memmove(at + 4 + START, at + 4, length - 4);
		memset(at + 4, 0xFE, START);
		length += START;
	}
	return length;
}

static void *records(void *nothing)
{
	static uint8_t bytes[BODY];
	static uint8_t line[MASM_LINE_MAX];
	static unsigned which, version, mode;
	static size_t length;
	static uint64_t returned;
	volatile uint8_t mark = 0;

	caller = (uintptr_t)&mark;
	for (which = 0; which < BODIES; which += step)
		for (version = 1; version <= VERSIONS; version++) {
			length = body(bytes, which, version);
			for (mode = 0; mode < MODES; mode++) {
				returned = masm_print_record(bytes, length, version, mode, line, 0);
				masm_print_record(bytes, length, version, mode, line, sizeof line);
				if (masm_answer(returned) == MASM_NO_ROOM)
					masm_print_record(bytes, length, version, mode, line, masm_length(returned));
			}
		}
	return nothing;
}

static void *listings(void *nothing)
{
	static unsigned which, mode;
	static uint64_t returned;
	volatile uint8_t mark = 0;

	caller = (uintptr_t)&mark;
	for (which = 0; which < VERSIONS; which++)
		for (mode = 0; mode < MODES; mode++) {
			returned = masm_print_listing(listing[which], listing_len[which], mode, text, 0);
			masm_print_listing(listing[which], listing_len[which], mode, text, masm_length(returned));
			masm_print_listing(listing[which], listing_len[which], mode, text, text_len);
		}
	return nothing;
}

/* The bytes of stack below this function's own that its calls take. */
static size_t taken(void *(*function)(void *))
{
	pthread_attr_t attributes;
	pthread_t thread;
	size_t at = 0;

	memset(stack, FILL, ROOM);
	if (pthread_attr_init(&attributes) != 0 || pthread_attr_setstack(&attributes, stack, ROOM) != 0 ||
	    pthread_create(&thread, &attributes, function, NULL) != 0 || pthread_join(thread, NULL) != 0) {
		fputs("stack: there is no thread for the test\n", stderr);
		exit(2);
	}
	while (at < ROOM && stack[at] == FILL)
		at++;
	return (size_t)(caller - (uintptr_t)stack) - at;
}

int main(void)
{
	size_t record, whole;
	unsigned which, version;

	stack = malloc(ROOM);
	for (version = 1; version <= VERSIONS; version++)
		listing[version - 1] = malloc(1 + (size_t)BODIES * (2 + BODY));
	text_len = (size_t)BODIES * (MASM_LINE_MAX + 1);
	text = malloc(text_len);
	if (stack == NULL || listing[0] == NULL || listing[1] == NULL || text == NULL) {
		fputs("stack: there is no memory for the test\n", stderr);
		return 2;
	}
	for (version = 1; version <= VERSIONS; version++) {
		uint8_t *at = listing[version - 1];
		size_t end = 0;

		at[end++] = (uint8_t)version;
		for (which = 0; which < BODIES; which++) {
			size_t length = body(at + end + 2, which, version);

			at[end] = 0;
			at[end + 1] = (uint8_t)length;
			end += 2 + length;
		}
		listing_len[version - 1] = end;
	}

	/* some before, so that what a dynamic linker does at a first call is not counted */
	step = 101;
	records(NULL);
	step = 1;
	record = taken(records);
	whole = taken(listings);
	printf("stack: a record takes %lu bytes, a listing %lu; the header says at most %d\n",
	       (unsigned long)record, (unsigned long)whole, SAID);
	free(stack);
	free(listing[0]);
	free(listing[1]);
	free(text);
	return record > SAID || whole > SAID;
}
