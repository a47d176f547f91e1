/* lines klog BOOT CAP | lines trace BOOT: does in plain C what `rasd lines` does with a log as the console prints it, with a
   time stamp in brackets and without EDAC's text, or with a trace as kernels since 6.12 print it: it prints the `bank` line of each complete report
   of an Intel processor, and a comment for each unreadable line, in the same bytes. Like rasd it prints the text before it
   reads the source again. */
#include "text.h"

static Text out;
static Bank bank;
static u64 boot, cap, count;
/* How much of the report in work is read: 0 nothing, 1 its first line, 2 its second one too. */
static int stage;

/* Passes over a text, if it stands there. */
static int is(const char **p, const char *text) {
	size_t n = strlen(text);
	if (**p != *text || strncmp(*p, text, n)) return 0;
	*p += n;
	return 1;
}
static void reg(u64 v) {
	int digits = v ? (67 - __builtin_clzll(v)) / 4 : 1;
	str(&out, " ");
	hex(&out, v, digits);
}
/* Gives an error without a counter one: its second, a check of its registers, and how many alike came before. */
static void name(Bank *b) {
	enum { SLOTS = 1 << 19, CHECKS = 1048573 };
	static struct {
		u64 place, like, count;
	} slots[SLOTS];
	unsigned __int128 check = ((unsigned __int128)b->status << 64 | b->addr) % CHECKS;
	u64 place = b->cpu << 8 | b->bank, like, at;
	check = (check << 64 | b->misc) % CHECKS;
	like = (b->seconds & 0xffffffff) << 32 | (u64)check << 12;
	for (at = (like ^ place) * 0x9e3779b97f4a7c15 >> 45; slots[at].count; at = (at + 1) % SLOTS)
		if (slots[at].place == place && slots[at].like == like) break;
	slots[at].place = place;
	slots[at].like = like;
	b->tsc = like + (slots[at].count < 4095 ? slots[at].count : 4095);
	slots[at].count++;
}
static void asking_line(Bank *b) {
	if (!(b->status >> 63)) return;
	if (!b->tsc) name(b);
	const u64 numbers[] = {b->seconds, b->cpu, b->bank, b->tsc};
	const u64 registers[] = {b->cap, b->mcg, b->status, b->addr, b->misc};
	str(&out, "bank ");
	dec(&out, b->boot);
	for (int i = 0; i < 4; i++) {
		str(&out, " ");
		dec(&out, numbers[i]);
	}
	for (int i = 0; i < 5; i++) reg(registers[i]);
	str(&out, "\n");
}
/* A number that ends at a byte, over which it passes. */
static int value(const char **p, unsigned base, char end, u64 *v) {
	const char *start = *p;
	*v = number(p, base);
	return *p > start && *(*p)++ == end;
}
/* Whether a stamp of seconds and microseconds stands before an event. */
static int is_traced(const char *line, const char *at) {
	u64 seconds, part;
	while (at > line && at[-1] == ' ') at--;
	while (at > line && at[-1] != ' ') at--;
	return value(&at, 10, '.', &seconds) && value(&at, 10, ':', &part);
}

/* Whether a line of a log tells nothing or can be read. */
static int read_log(const char *p) {
	static const char mark[] = "mce: [Hardware Error]: ";
	const char *at = strstr(p, mark), *text;
	u64 cpu, number_, vendor;
	Bank b = {.boot = boot, .cap = cap};
	if (!at || (at > p && (*p != '[' || at[-1] != ' ' || at[-2] != ']' || memchr(p, ']', at - p) != at - 2))) return 1;
	text = at + sizeof mark - 1;
	if (is(&text, "CPU ")) {
		if (!value(&text, 10, ':', &cpu) || !(is(&text, " Machine Check: ") || is(&text, " Machine Check Exception: ")) ||
		    !value(&text, 16, ' ', &b.mcg) || !is(&text, "Bank ") || !value(&text, 10, ':', &number_) || *text++ != ' ')
			return 0;
		b.status = number(&text, 16);
		b.cpu = cpu;
		b.bank = number_;
		if (stage) fail("a report isn't whole");
		bank = b;
		stage = 1;
	} else if (is(&text, "TSC ")) {
		if (stage != 1) return 0;
		stage = 2;
		bank.tsc = number(&text, 16);
		if (is(&text, " ADDR ")) bank.addr = number(&text, 16);
		if (is(&text, " MISC ")) bank.misc = number(&text, 16);
	} else if (is(&text, "PROCESSOR ")) {
		if (stage != 2 || !value(&text, 10, ':', &vendor)) return 0;
		number(&text, 16);
		if (!is(&text, " TIME ")) return 0;
		bank.seconds = number(&text, 10);
		stage = 0;
		if (vendor) fail("another vendor");
		asking_line(&bank);
	}
	return 1;
}

/* Whether a line of a trace tells nothing or can be read. */
static int read_trace(const char *p) {
	enum { CPU = 1, GLOBAL = 2, STATUS = 4, ADDR = 8, MISC = 16, TSC = 32, VENDOR = 64, TIME = 128, ALL = 255 };
	static const char mark[] = "mce_record: ";
	const char *at = strstr(p, mark);
	unsigned told = 0, twice = 0, field;
	u64 number_, vendor = 0;
	Bank b = {.boot = boot};
	if (!at) return 1;
	for (const char *q = at + sizeof mark - 1; q; q = strchr(q, ','), q += !!q) {
		while (*q == ' ') q++;
		field = 0;
		if (is(&q, "CPU: ")) field = CPU, b.cpu = number(&q, 10);
		else if (is(&q, "MCGc/s: ")) {
			field = GLOBAL;
			if (!value(&q, 16, '/', &b.cap)) return 0;
			b.mcg = number(&q, 16);
		} else if (is(&q, "ADDR: ")) field = ADDR, b.addr = number(&q, 16);
		else if (is(&q, "MISC: ")) field = MISC, b.misc = number(&q, 16);
		else if (is(&q, "TSC: ")) field = TSC, b.tsc = number(&q, 16);
		else if (is(&q, "vendor: ")) field = VENDOR, vendor = number(&q, 10);
		else if (is(&q, "time: ")) field = TIME, b.seconds = number(&q, 10);
		else if (is(&q, "MC") && value(&q, 10, ':', &number_) && *q == ' ') {
			field = STATUS;
			b.bank = number_;
			q++;
			b.status = number(&q, 16);
		}
		twice |= told & field;
		told |= field;
		if (field && *q && *q != ',') return 0;
	}
	if (told != ALL || twice) return 0;
	if (vendor) fail("another vendor");
	if (!b.tsc && !is_traced(p, at)) return 0;
	asking_line(&b);
	return 1;
}
static int (*read_line)(const char *);
static void take(const char *p) {
	count++;
	if (read_line(p)) return;
	str(&out, "# unread ");
	dec(&out, count);
	str(&out, "\n");
}
static void print_out(void) { print(&out); }

int main(int argc, char **argv) {
	int is_log = argc == 4 && !strcmp(argv[1], "klog");
	if (!is_log && (argc != 3 || strcmp(argv[1], "trace"))) fail("usage: lines klog BOOT CAP | lines trace BOOT");
	boot = strtoull(argv[2], 0, 10);
	if (is_log) cap = strtoull(argv[3], 0, 16);
	read_line = is_log ? read_log : read_trace;
	read_lines(take, print_out);
	print(&out);
	if (stage) fail("a report isn't whole");
	return 0;
}
