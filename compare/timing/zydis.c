/*
 * zydis LISTING ROUNDS: times Zydis's MASM formatter on the instructions of a listing.
 *
 * Zydis prints what it has decoded from machine code, so each record of the listing is first made into
 * machine code by Zydis's own encoder; a record that has none ends the program with status 1. Then, for
 * each round, the instructions are decoded and their lines written one behind the other, in parts of 256
 * that stay in a near cache. A line of output has a name and the nanoseconds of processor time of each
 * round: "format" is the formatter alone, "decode and format" both. With ROUNDS 0 the lines themselves
 * are written.
 */
#include <Zydis/Zydis.h>
#include <stdio.h>
#include <stdlib.h>
#include <string.h>
#include <time.h>

enum { PART = 256, LINE = 256, MAX_ROUNDS = 1024 };

static void fail(const char *what, size_t at)
{
	fprintf(stderr, "zydis: %s at record %zu\n", what, at);
	exit(1);
}

/* the opcodes of the benchmark's listing, by document 01's numbers */
static ZydisMnemonic mnemonic(unsigned opcode, unsigned size)
{
	static const ZydisMnemonic jumps[] = {
		ZYDIS_MNEMONIC_JO, ZYDIS_MNEMONIC_JNO, ZYDIS_MNEMONIC_JB, ZYDIS_MNEMONIC_JNB,
		ZYDIS_MNEMONIC_JZ, ZYDIS_MNEMONIC_JNZ, ZYDIS_MNEMONIC_JBE, ZYDIS_MNEMONIC_JNBE,
		ZYDIS_MNEMONIC_JS, ZYDIS_MNEMONIC_JNS, ZYDIS_MNEMONIC_JP, ZYDIS_MNEMONIC_JNP,
		ZYDIS_MNEMONIC_JL, ZYDIS_MNEMONIC_JNL, ZYDIS_MNEMONIC_JLE, ZYDIS_MNEMONIC_JNLE,
	};
	static const ZydisMnemonic moves[] = {
		ZYDIS_MNEMONIC_MOV, ZYDIS_MNEMONIC_ADD, ZYDIS_MNEMONIC_OR, ZYDIS_MNEMONIC_ADC, ZYDIS_MNEMONIC_SBB,
		ZYDIS_MNEMONIC_AND, ZYDIS_MNEMONIC_SUB, ZYDIS_MNEMONIC_XOR, ZYDIS_MNEMONIC_CMP, ZYDIS_MNEMONIC_TEST,
		ZYDIS_MNEMONIC_PUSH, ZYDIS_MNEMONIC_POP, ZYDIS_MNEMONIC_INC, ZYDIS_MNEMONIC_DEC,
	};
	if (opcode >= 6 && opcode < 22)
		return jumps[opcode - 6];
	if (opcode >= 23 && opcode < 37)
		return moves[opcode - 23];
	switch (opcode) {
	case 0: return ZYDIS_MNEMONIC_JMP;
	case 1: return ZYDIS_MNEMONIC_CALL;
	case 60: return size == 1 ? ZYDIS_MNEMONIC_MOVSB : size == 2 ? ZYDIS_MNEMONIC_MOVSW : ZYDIS_MNEMONIC_MOVSD;
	case 88: return size == 1 ? ZYDIS_MNEMONIC_STOSB : size == 2 ? ZYDIS_MNEMONIC_STOSW : ZYDIS_MNEMONIC_STOSD;
	case 101: return ZYDIS_MNEMONIC_LEA;
	case 112: return ZYDIS_MNEMONIC_FADD;
	case 143: return ZYDIS_MNEMONIC_FLD;
	case 150: return ZYDIS_MNEMONIC_FSTP;
	default: return ZYDIS_MNEMONIC_INVALID;
	}
}

/* a register byte of document 01, banks 0 to 2 and 4 */
static ZydisRegister reg(unsigned byte)
{
	static const ZydisRegister banks[] = {
		ZYDIS_REGISTER_EAX, ZYDIS_REGISTER_AX, ZYDIS_REGISTER_AL, ZYDIS_REGISTER_NONE, ZYDIS_REGISTER_ST0,
	};
	return banks[byte / 8] + byte % 8;
}

static unsigned long number(const unsigned char *at, int bytes)
{
	unsigned long value = 0;
	while (bytes--)
		value = value << 8 | *at++;
	return value;
}

/* The machine code of one record; its length. */
static size_t encode(const unsigned char *body, size_t record, unsigned char *code)
{
	static const ZydisInstructionAttributes segments[] = {
		0, ZYDIS_ATTRIB_HAS_SEGMENT_ES, ZYDIS_ATTRIB_HAS_SEGMENT_CS, ZYDIS_ATTRIB_HAS_SEGMENT_SS,
		ZYDIS_ATTRIB_HAS_SEGMENT_DS, ZYDIS_ATTRIB_HAS_SEGMENT_FS, ZYDIS_ATTRIB_HAS_SEGMENT_GS,
	};
	unsigned opcode = number(body, 2), size = body[4];
	int imm = (int)number(body + 5, 4), disp = (int)number(body + 9, 4);
	/* Zydis has no operands for movs and stos, and for fld only the second */
	unsigned from = opcode == 60 || opcode == 88 ? body[13] : opcode == 143 ? 1 : 0;
	ZydisEncoderRequest request;
	ZyanUSize length = ZYDIS_MAX_INSTRUCTION_LENGTH;

	memset(&request, 0, sizeof request);
	request.machine_mode = ZYDIS_MACHINE_MODE_LEGACY_32;
	request.mnemonic = mnemonic(opcode, size);
	request.prefixes = body[2] & 8 ? ZYDIS_ATTRIB_HAS_REP : 0;
	request.operand_count = body[13] - from;
	for (unsigned at = from; at < body[13]; at++) {
		const unsigned char *slot = body + 14 + 5 * at;
		ZydisEncoderOperand *to = request.operands + at - from;
		switch (slot[0]) {
		case 1: case 2:
			to->type = ZYDIS_OPERAND_TYPE_REGISTER;
			to->reg.value = reg(slot[2]);
			break;
		case 3: case 6:
			to->type = ZYDIS_OPERAND_TYPE_IMMEDIATE;
			to->imm.s = (signed char)imm;
			break;
		case 5:
			to->type = ZYDIS_OPERAND_TYPE_IMMEDIATE;
			to->imm.s = imm;
			break;
		default:
			to->type = ZYDIS_OPERAND_TYPE_MEMORY;
			to->mem.size = opcode == 101 ? 4 : size;
			to->mem.displacement = slot[0] == 11 || slot[0] == 15 ? 0 : disp;
			if (slot[0] == 11 || slot[0] == 12 || slot[0] >= 15)
				to->mem.base = reg(slot[2]);
			if (slot[0] >= 13) {
				to->mem.index = reg(slot[slot[0] >= 15 ? 3 : 2]);
				to->mem.scale = slot[4];
			}
			request.prefixes |= segments[slot[1]];
		}
	}
	/* where an encoder has two forms of a branch, the record says which */
	if (opcode < 23) {
		request.branch_type = body[14] == 3 ? ZYDIS_BRANCH_TYPE_SHORT : ZYDIS_BRANCH_TYPE_NEAR;
		request.branch_width = body[14] == 3 ? ZYDIS_BRANCH_WIDTH_8 : ZYDIS_BRANCH_WIDTH_32;
	}
	if (!ZYAN_SUCCESS(ZydisEncoderEncodeInstruction(&request, code, &length)))
		fail("no machine code", record);
	return length;
}

static long now(void)
{
	struct timespec time;
	clock_gettime(CLOCK_PROCESS_CPUTIME_ID, &time);
	return time.tv_sec * 1000000000L + time.tv_nsec;
}

static ZydisDecoder decoder;
static ZydisFormatter formatter;
static ZydisDecodedInstruction instructions[PART];
static ZydisDecodedOperand operands[PART][ZYDIS_MAX_OPERAND_COUNT_VISIBLE];

/* Decodes up to PART instructions and says where the next ones start. */
static size_t decode(const unsigned char *code, size_t size, size_t at, int *count)
{
	ZydisDecoderContext context;
	for (*count = 0; *count < PART && at < size; ++*count) {
		ZydisDecodedInstruction *to = instructions + *count;
		if (!ZYAN_SUCCESS(ZydisDecoderDecodeInstruction(&decoder, &context, code + at, size - at, to)) ||
			!ZYAN_SUCCESS(ZydisDecoderDecodeOperands(&decoder, &context, to, operands[*count], to->operand_count_visible)))
			fail("the code does not decode", at);
		at += to->length;
	}
	return at;
}

/* Writes their lines and says where the text ends. */
static char *format(char *text, int count)
{
	for (int at = 0; at < count; at++) {
		if (!ZYAN_SUCCESS(ZydisFormatterFormatInstruction(&formatter, instructions + at, operands[at],
			instructions[at].operand_count_visible, text, LINE, ZYDIS_RUNTIME_ADDRESS_NONE, NULL)))
			fail("no line", at);
		text += strlen(text);
		*text++ = '\n';
	}
	return text;
}

int main(int argc, char **argv)
{
	static long formatting[MAX_ROUNDS], both[MAX_ROUNDS];
	size_t size, end = 0, records = 0;
	int rounds = argc == 3 ? atoi(argv[2]) : -1, count;
	FILE *file = argc == 3 ? fopen(argv[1], "rb") : NULL;

	if (!file || rounds < 0 || rounds > MAX_ROUNDS) {
		fputs("use: zydis LISTING ROUNDS\n", stderr);
		return 2;
	}
	fseek(file, 0, SEEK_END);
	size = ftell(file);
	rewind(file);
	unsigned char *listing = malloc(size), *code = malloc(size);
	if (!listing || !code || fread(listing, 1, size, file) != size)
		fail("no room, or the listing cannot be read", 0);
	/* a body has 14 bytes at least, and machine code 15 at most; frames have two more */
	for (size_t at = 1; at + 2 < size; at += 2 + number(listing + at, 2), records++)
		end += encode(listing + at + 2, records, code + end);
	char *text = malloc(records * LINE + LINE);
	if (!text)
		fail("no room", records);
	memset(text, 1, records * LINE);
	ZydisDecoderInit(&decoder, ZYDIS_MACHINE_MODE_LEGACY_32, ZYDIS_STACK_WIDTH_32);
	ZydisFormatterInit(&formatter, ZYDIS_FORMATTER_STYLE_INTEL_MASM);
	for (int round = 0; round < rounds || round == 0; round++) {
		char *to = text;
		long start = now();
		for (size_t at = 0; at < end;) {
			at = decode(code, end, at, &count);
			long decoded = now();
			to = format(to, count);
			formatting[round] += now() - decoded;
		}
		both[round] = now() - start;
		if (!rounds)
			fwrite(text, 1, to - text, stdout);
	}
	if (rounds) {
		printf("format");
		for (int round = 0; round < rounds; round++)
			printf(" %ld", formatting[round]);
		printf("\ndecode and format");
		for (int round = 0; round < rounds; round++)
			printf(" %ld", both[round]);
		printf("\n");
	}
	return 0;
}
