/*
 * A C host of the listing printer, and nothing more: it is told which calls to make, makes them, and
 * tells what they returned, what was written, and whether a byte changed that had to stay. Every
 * judgement about answers and texts is the caller's, in Rust.
 *
 * It is C because the archive is x86-64 and speaks C. Where this machine is another, the Rust runs on
 * the machine and only this program runs under an emulator, so it includes no header and needs of a C
 * library the five functions below, which bare_x86_64.c can stand in for.
 *
 * A message on standard input: one letter, eight bytes of payload length, the payload. Numbers are
 * little-endian. Letters: r (records), l (a listing), b (a listing, timed), e (its records each by
 * itself, timed). The replies are described at each function. The program ends with status 0 when the input ends.
 */
typedef unsigned char u8;
typedef unsigned int u32;
typedef unsigned long u64;
typedef long i64;

u64 masm_print_record(const u8 *body, u64 body_len, u32 version, u32 mode, u8 *text, u64 text_len);
u64 masm_print_listing(const u8 *listing, u64 listing_len, u32 mode, u8 *text, u64 text_len);

i64 read(int file, void *to, u64 count);
i64 write(int file, const void *from, u64 count);
void *mmap(void *at, u64 size, int access, int flags, int file, i64 offset);
int mprotect(void *at, u64 size, int access);
int clock_gettime(int clock, i64 *seconds_and_nanoseconds);

enum {
	FENCE = 64,                    /* bytes watched on either side of the lent buffer */
	MAX_ROOM = 4096,               /* the widest lent buffer of a record call */
	MAX_BODY = 128 << 10,
	MAX_REQUEST = 64 << 20,
	MAX_LISTING_ROOM = 112 << 20,  /* a listing within the limit prints fewer bytes than this */
	MAX_ROUNDS = 1024,
	MAX_TIMED = 1 << 20,           /* records of a listing whose records are timed */
	PROCESSOR_TIME = 2,            /* Linux's clock of what this process used: others do not count */
	GUARD = 64 << 10               /* a multiple of every page size in use */
};

/* what a reply says of the bytes that had to stay */
enum { BEFORE = 1, BEHIND = 2, INSIDE = 4 };

static const u8 FILL = 0xA5;

static u8 request[MAX_REQUEST];
static u8 reply[1 << 20];
static u64 replied;
static u8 lent[FENCE + MAX_LISTING_ROOM + FENCE];

static void put(const void *from, u64 count)
{
	const u8 *bytes = from;
	for (u64 at = 0; at < count;) {
		i64 done = write(1, bytes + at, count - at);
		if (done <= 0)
			__builtin_trap();
		at += (u64)done;
	}
}

static void flush(void)
{
	put(reply, replied);
	replied = 0;
}

static void say(const void *from, u64 count)
{
	if (replied + count > sizeof reply)
		flush();
	if (count > sizeof reply) {
		put(from, count);
		return;
	}
	__builtin_memcpy(reply + replied, from, count);
	replied += count;
}

/* 0 where the input ends before the first byte */
static int get(void *to, u64 count)
{
	u8 *bytes = to;
	for (u64 at = 0; at < count;) {
		i64 done = read(0, bytes + at, count - at);
		if (done <= 0) {
			if (done < 0 || at)
				__builtin_trap();
			return 0;
		}
		at += (u64)done;
	}
	return 1;
}

static u64 number(const u8 *at, int bytes)
{
	u64 value = 0;
	while (bytes-- > 0)
		value = value << 8 | at[bytes];
	return value;
}

static int filled(const u8 *at, u64 count)
{
	const u64 all = 0xA5A5A5A5A5A5A5A5ul;
	u64 word;
	for (; count >= sizeof word; at += sizeof word, count -= sizeof word) {
		__builtin_memcpy(&word, at, sizeof word);
		if (word != all)
			return 0;
	}
	for (; count; at++, count--)
		if (*at != FILL)
			return 0;
	return 1;
}

/* Fills the lent buffer and its fences up to this room, once: `tell` mends what a call changed. */
static void prepare(u64 room)
{
	static u64 ready;
	if (ready < FENCE + room + FENCE) {
		__builtin_memset(lent + ready, FILL, FENCE + room + FENCE - ready);
		ready = FENCE + room + FENCE;
	}
}

/* What the call did to the lent buffer, as a reply: the returned number, the marks, how many bytes
   follow, the bytes. After it the buffer is as it was before the call. */
static void tell(u64 returned, u64 room)
{
	u8 *text = lent + FENCE;
	u64 length = returned >> 32 ? 0 : (u32)returned;
	u32 marks = 0, shown;

	if (length > room)
		length = room;
	if (!filled(lent, FENCE))
		marks |= BEFORE;
	if (!filled(text + room, FENCE))
		marks |= BEHIND;
	if (!filled(text + length, room - length))
		marks |= INSIDE;
	shown = (u32)length;
	say(&returned, 8);
	say(&marks, 4);
	say(&shown, 4);
	say(text, length);
	__builtin_memset(text, FILL, marks ? room : length);
	if (marks) {
		__builtin_memset(lent, FILL, FENCE);
		__builtin_memset(text + room, FILL, FENCE);
	}
}

/* Payload: for each record its length and its number of calls, four bytes each, the body, and for each
   call version, mode and room, four bytes each. A reply for each call. The body stands before a page that may
   not be read, so that reading behind it ends the program. */
static void records(const u8 *at, u64 count, u8 *body_end)
{
	const u8 *end = at + count;
	while (at < end) {
		u64 length = number(at, 4), calls = number(at + 4, 4);
		u8 *body = body_end - length;
		at += 8;
		__builtin_memcpy(body, at, length);
		at += length;
		for (; calls; calls--, at += 12) {
			u32 version = (u32)number(at, 4), mode = (u32)number(at + 4, 4);
			u64 room = number(at + 8, 4);
			if (room > MAX_ROOM)
				__builtin_trap();
			prepare(room);
			tell(masm_print_record(body, length, version, mode, lent + FENCE, room), room);
		}
	}
	flush();
}

/* Payload: mode, four bytes; room, eight; the listing. One reply. */
static void listing(const u8 *at, u64 count)
{
	u64 room = number(at + 4, 8);
	if (room > MAX_LISTING_ROOM)
		__builtin_trap();
	prepare(room);
	tell(masm_print_listing(at + 12, count - 12, (u32)number(at, 4), lent + FENCE, room), room);
	flush();
}

/* Payload: rounds, mode, four bytes each; room, eight; the listing. Reply: for each round what was
   returned and the nanoseconds of processor time. The buffer has been written once before the first round, so that no
   round pays for fresh pages, and is not cleared between rounds. */
static void timed(const u8 *at, u64 count)
{
	static u64 took[2 * MAX_ROUNDS];
	u64 rounds = number(at, 4), room = number(at + 8, 8);
	u32 mode = (u32)number(at + 4, 4);
	i64 from[2], to[2];

	if (room > MAX_LISTING_ROOM || rounds > MAX_ROUNDS)
		__builtin_trap();
	prepare(room);
	for (u64 round = 0; round < rounds; round++) {
		clock_gettime(PROCESSOR_TIME, from);
		took[2 * round] = masm_print_listing(at + 16, count - 16, mode, lent + FENCE, room);
		clock_gettime(PROCESSOR_TIME, to);
		took[2 * round + 1] = (u64)((to[0] - from[0]) * 1000000000 + to[1] - from[1]);
	}
	say(took, 16 * rounds);
	flush();
	__builtin_memset(lent + FENCE, FILL, room);
}

/* The records of a listing, each by a call of its own. Payload as for `timed`, but the room is that of
   each call; 0 is exactly the room that the record needs, which is asked for before the first round. The
   listing is whole, and its version byte is the version of each record. Reply: for each round the bytes printed, all together, and the nanoseconds. */
static void each(const u8 *at, u64 count)
{
	static u64 took[2 * MAX_ROUNDS];
	static u32 needed[MAX_TIMED];
	u64 rounds = number(at, 4), room = number(at + 8, 8), k;
	u32 mode = (u32)number(at + 4, 4), version = at[16];
	const u8 *first = at + 17, *end = at + count, *frame;
	i64 from[2], to[2];

	if (room > MAX_ROOM || rounds > MAX_ROUNDS)
		__builtin_trap();
	prepare(MAX_ROOM);
	for (frame = first, k = 0; frame < end; frame += 2 + (frame[0] << 8 | frame[1])) {
		if (k == MAX_TIMED)
			__builtin_trap();
		needed[k++] = room ? (u32)room : (u32)masm_print_record(frame + 2, frame[0] << 8 | frame[1], version, mode, lent + FENCE, MAX_ROOM);
	}
	for (u64 round = 0; round < rounds; round++) {
		u64 printed = 0;
		clock_gettime(PROCESSOR_TIME, from);
		for (frame = first, k = 0; frame < end; k++) {
			u64 length = frame[0] << 8 | frame[1];
			u64 returned = masm_print_record(frame + 2, length, version, mode, lent + FENCE, needed[k]);
			printed += returned >> 32 ? 0 : (u32)returned;
			frame += 2 + length;
		}
		clock_gettime(PROCESSOR_TIME, to);
		took[2 * round] = printed;
		took[2 * round + 1] = (u64)((to[0] - from[0]) * 1000000000 + to[1] - from[1]);
	}
	say(took, 16 * rounds);
	flush();
	__builtin_memset(lent + FENCE, FILL, MAX_ROOM);
}

int main(void)
{
	u8 head[9];
	u8 *pages = mmap(0, MAX_BODY + GUARD, 3, 0x22, -1, 0);

	if (pages == (u8 *)-1 || mprotect(pages + MAX_BODY, GUARD, 0))
		return 1;
	while (get(head, sizeof head)) {
		u64 count = number(head + 1, 8);
		if (count > MAX_REQUEST)
			return 1;
		if (count && !get(request, count))
			return 1;
		if (head[0] == 'r')
			records(request, count, pages + MAX_BODY);
		else if (head[0] == 'l')
			listing(request, count);
		else if (head[0] == 'b')
			timed(request, count);
		else if (head[0] == 'e')
			each(request, count);
		else
			return 1;
	}
	return 0;
}
