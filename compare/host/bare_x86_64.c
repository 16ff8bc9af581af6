/*
 * What driver.c and the archive need where there is no C library for x86-64: a start, five system
 * calls of Linux, and the memory functions that a compiler may call by itself.
 */
typedef unsigned char u8;
typedef unsigned long u64;
typedef long i64;

__asm__(".globl _start\n"
	"_start:\n"
	"	xorl %ebp, %ebp\n"
	"	andq $-16, %rsp\n"
	"	call main\n"
	"	movl %eax, %edi\n"
	"	movl $60, %eax\n"
	"	syscall\n");

static i64 ask(i64 call, i64 a, i64 b, i64 c, i64 d, i64 e, i64 f)
{
	i64 answer;
	register i64 fourth __asm__("r10") = d;
	register i64 fifth __asm__("r8") = e;
	register i64 sixth __asm__("r9") = f;
	__asm__ volatile("syscall"
			 : "=a"(answer)
			 : "a"(call), "D"(a), "S"(b), "d"(c), "r"(fourth), "r"(fifth), "r"(sixth)
			 : "rcx", "r11", "memory");
	return answer;
}

i64 read(int file, void *to, u64 count) { return ask(0, file, (i64)to, (i64)count, 0, 0, 0); }
i64 write(int file, const void *from, u64 count) { return ask(1, file, (i64)from, (i64)count, 0, 0, 0); }

void *mmap(void *at, u64 size, int access, int flags, int file, i64 offset)
{
	i64 answer = ask(9, (i64)at, (i64)size, access, flags, file, offset);
	return answer < 0 ? (void *)-1 : (void *)answer;
}

int mprotect(void *at, u64 size, int access) { return (int)ask(10, (i64)at, (i64)size, access, 0, 0, 0); }
int clock_gettime(int clock, i64 *time) { return (int)ask(228, clock, (i64)time, 0, 0, 0, 0); }

/* The texts that printers copy are short, for which `rep movs` is slow: it would be timed too. */
void *memcpy(void *to, const void *from, u64 count)
{
	u8 *target = to;
	const u8 *source = from;
	for (; count >= 8; target += 8, source += 8, count -= 8)
		__builtin_memcpy(target, source, 8);
	if (count & 4) {
		__builtin_memcpy(target, source, 4);
		target += 4, source += 4;
	}
	if (count & 2) {
		__builtin_memcpy(target, source, 2);
		target += 2, source += 2;
	}
	if (count & 1)
		*target = *source;
	return to;
}

void *memmove(void *to, const void *from, u64 count)
{
	u8 *target = to;
	const u8 *source = from;
	if (target <= source || target >= source + count)
		return memcpy(to, from, count);
	while (count--)
		target[count] = source[count];
	return to;
}

void *memset(void *to, int value, u64 count)
{
	void *at = to;
	u64 words = count / 8, rest = count % 8, word = 0x0101010101010101ul * (u8)value;
	__asm__ volatile("rep stosq" : "+D"(at), "+c"(words) : "a"(word) : "memory");
	__asm__ volatile("rep stosb" : "+D"(at), "+c"(rest) : "a"(word) : "memory");
	return to;
}

int memcmp(const void *one, const void *other, u64 count)
{
	const u8 *a = one, *b = other;
	for (; count; a++, b++, count--)
		if (*a != *b)
			return *a < *b ? -1 : 1;
	return 0;
}

int bcmp(const void *one, const void *other, u64 count) { return memcmp(one, other, count); }
void abort(void) { __builtin_trap(); }
