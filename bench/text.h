/* The common parts of this folder's C programs: growing text, numbers in it, and the `log` line of a bank. */
#define _GNU_SOURCE
#include <stddef.h>
#include <stdint.h>
#include <stdio.h>
#include <stdlib.h>
#include <string.h>
#include <unistd.h>

typedef uint64_t u64;
typedef uint8_t u8;
typedef struct {
	char *b;
	size_t n, room;
} Text;
typedef struct {
	u64 boot, seconds, cpu, bank, tsc, cap, mcg, status, addr, misc;
} Bank;

static inline _Noreturn void fail(const char *what) {
	fprintf(stderr, "failed: %s\n", what);
	exit(1);
}
static inline void add(Text *t, const void *p, size_t n) {
	if (t->n + n > t->room && !(t->b = realloc(t->b, t->room = (t->n + n) * 2))) fail("no memory");
	memcpy(t->b + t->n, p, n);
	t->n += n;
}
static inline void str(Text *t, const char *s) { add(t, s, strlen(s)); }
/* A number of so many bytes, little-endian. */
static inline void num(Text *t, u64 v, size_t n) { add(t, &v, n); }
static inline void dec(Text *t, u64 v) {
	char digits[20];
	int i = 20;
	do digits[--i] = '0' + v % 10;
	while (v /= 10);
	add(t, digits + i, 20 - i);
}
static inline void hex(Text *t, u64 v, int n) {
	char digits[16];
	for (int i = n - 1; i >= 0; i--, v >>= 4) digits[i] = "0123456789abcdef"[v & 15];
	add(t, digits, n);
}
static inline void print(Text *t) {
	for (size_t at = 0; at < t->n;) {
		ssize_t n = write(1, t->b + at, t->n - at);
		if (n <= 0) fail("a print failed");
		at += n;
	}
	t->n = 0;
}

/* The digits that stand there, as a number; which may end where they do is for the caller to see. */
static inline u64 number(const char **p, unsigned base) {
	u64 v = 0;
	for (;; ++*p) {
		unsigned d = (u8)**p - '0';
		if (d > 9) {
			unsigned letter = ((unsigned)(u8)**p | 32) - 'a';
			d = letter < 6 ? letter + 10 : 16;
		}
		if (d >= base) return v;
		v = v * base + d;
	}
}

/* The page of an error, or -1 where its address isn't to be used. */
static inline int64_t page_of(const Bank *b) {
	int is_usable = b->cap >> 24 & 1 && b->status >> 58 & 1 && b->status >> 59 & 1 && (b->misc & 63) <= 12;
	return is_usable && (b->misc >> 6 & 7) == 2 ? (int64_t)(b->addr >> 12) : -1;
}
static inline u64 weight_of(const Bank *b) {
	u64 count = b->cap >> 10 & 1 ? b->status >> 38 & 0x7FFF : 1;
	return count ? count : 1;
}
static inline void name_of(Text *t, const char *what, const Bank *b) {
	str(t, what);
	dec(t, b->boot);
	str(t, "/");
	dec(t, b->cpu);
	str(t, "/");
	dec(t, b->bank);
	str(t, "/");
	dec(t, b->tsc);
}
/* The line of a corrected error of memory; one of another class ends the program. */
static inline void log_line(Text *t, const Bank *b, const char *label) {
	static const char *const does[] = {"GEN", "RD", "WR", "AC", "SCRUB", "RES", "RES", "RES"};
	static const char *const thresholds[] = {"none", "green", "yellow", "reserved"};
	unsigned code = b->status & 0xFFFF;
	if (!(b->status >> 63) || b->status >> 61 & 1 || (code & 0xEF80) != 0x80 || (code & 15) == 15) fail("another class");
	name_of(t, "log bank=", b);
	str(t, " t=");
	dec(t, b->seconds);
	str(t, " class=CE weight=");
	dec(t, weight_of(b));
	str(t, " label=");
	str(t, *label ? label : "-");
	str(t, " page=");
	if (page_of(b) >= 0) hex(t, page_of(b) << 12, 16);
	else str(t, "-");
	str(t, " code=memory:");
	str(t, does[code >> 4 & 7]);
	str(t, ":");
	dec(t, code & 15);
	str(t, " threshold=");
	str(t, b->cap >> 11 & 1 ? thresholds[b->status >> 53 & 3] : "-");
	str(t, " over=");
	dec(t, b->status >> 62 & 1);
	str(t, " mark=- ripv=");
	dec(t, b->mcg & 1);
	str(t, " eipv=");
	dec(t, b->mcg >> 1 & 1);
	str(t, " mcip=");
	dec(t, b->mcg >> 2 & 1);
	str(t, "\n");
}

/* Gives each whole line of standard input to a function, with a 0 in place of its line feed, and calls another before
   each read. */
static inline void read_lines(void (*each)(const char *), void (*before)(void)) {
	static char in[1 << 17];
	size_t have = 0;
	for (ssize_t n; before ? before() : (void)0, (n = read(0, in + have, sizeof in - have)) > 0;) {
		char *p = in, *end;
		have += n;
		for (; (end = memchr(p, '\n', in + have - p)); p = end + 1) {
			*end = 0;
			each(p);
		}
		have -= p - in;
		memmove(in, p, have);
	}
}
