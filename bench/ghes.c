/* ghes BOOT BEGAN: does in plain C what `rasd lines ghes` does with corrected memory errors of one source in a log as the console
   prints it, and with mc_event and aer_event in a trace: it prints the `ghes` line of each, behind the table of its source, in the
   same bytes. Like rasd it prints the text before it reads the source again. */
#include "text.h"

enum { HEAD = 20, ENTRY = 72, MEMORY = 80, PCIE = 208, CORRECTED = 2, NO_SOURCE = 65535 };
static const u8 of_memory[16] = {0x14, 0x11, 0xbc, 0xa5, 0x64, 0x6f, 0xde, 0x4e, 0xb8, 0x63, 0x3e, 0x83, 0xed, 0x7c, 0x83, 0xb1};
static const u8 of_pcie[16] = {0x54, 0xe9, 0x95, 0xd9, 0xc1, 0xbb, 0x0f, 0x43, 0xad, 0x91, 0xb4, 0x4d, 0xcb, 0x3c, 0x6f, 0x35};

static Text out;
static u64 boot, began, known_source = UINT64_MAX;
/* The report in work: its number, the stamp of its first line and of its last one, its source, and its section. */
static struct {
	u64 number, first, last, source;
	u8 memory[MEMORY];
	int is_open, has_severity;
} report;

static void put(u8 *at, u64 v, size_t n) { memcpy(at, &v, n); }
static void push_hex(const u8 *bytes, size_t n) {
	char text[2 * (HEAD + ENTRY + PCIE)];
	for (size_t i = 0; i < n; i++) {
		text[2 * i] = "0123456789abcdef"[bytes[i] >> 4];
		text[2 * i + 1] = "0123456789abcdef"[bytes[i] & 15];
	}
	add(&out, text, 2 * n);
}
/* The table of the source, which comes once. */
static void push_table(u64 source) {
	u8 table[104] = "HEST", sum = 0;
	put(table + 4, sizeof table, 4);
	put(table + 36, 1, 4);
	put(table + 40, 9, 2);
	put(table + 42, source, 2);
	for (size_t i = 0; i < sizeof table; i++) sum += table[i];
	table[9] = -sum;
	str(&out, "hest ");
	push_hex(table, sizeof table);
	str(&out, "\n");
	known_source = source;
}
static void push_block(u64 source, u64 stamp, const u8 *type, const u8 *section, size_t n) {
	u8 block[HEAD + ENTRY + PCIE] = {0x12};
	if (known_source == UINT64_MAX) push_table(source);
	if (known_source != source) fail("another source");
	put(block + 12, ENTRY + n, 4);
	put(block + 16, CORRECTED, 4);
	memcpy(block + HEAD, type, 16);
	put(block + HEAD + 16, CORRECTED, 4);
	put(block + HEAD + 20, 0x300, 2);
	put(block + HEAD + 24, n, 4);
	memcpy(block + HEAD + ENTRY, section, n);
	str(&out, "ghes ");
	dec(&out, boot);
	str(&out, " ");
	dec(&out, began + stamp / 1000000);
	str(&out, " ");
	dec(&out, source);
	str(&out, " ");
	dec(&out, stamp);
	str(&out, " ");
	push_hex(block, HEAD + ENTRY + n);
	str(&out, "\n");
}
static void end_report(void) {
	if (!report.is_open) return;
	if (!report.has_severity) fail("another severity");
	push_block(report.source, report.first, of_memory, report.memory, MEMORY);
	report.is_open = 0;
}

static int is(const char **p, const char *text) {
	size_t n = strlen(text);
	if (**p != *text || strncmp(*p, text, n)) return 0;
	*p += n;
	return 1;
}
/* Sets a field of a memory section and its bit. */
static void set(u8 *section, unsigned bit, size_t at, u64 v, size_t n) {
	section[bit / 8] |= 1 << bit % 8;
	put(section + at, v, n);
}
/* Reads the places of a module, as far as they stand there. */
static void read_places(u8 *section, const char *p) {
	if (is(&p, "node:")) set(section, 3, 32, number(&p, 10), 2), p += *p == ' ';
	if (is(&p, "card:")) set(section, 4, 34, number(&p, 10), 2), p += *p == ' ';
	if (is(&p, "module:")) set(section, 5, 36, number(&p, 10), 2);
}

/* A stamp `[  seconds.micros] `, or `seconds.micros: `, in microseconds. */
static u64 stamp_at(const char **p, const char *end) {
	while (**p == ' ') ++*p;
	u64 seconds = number(p, 10);
	if (*(*p)++ != '.') fail("no stamp");
	u64 v = seconds * 1000000 + number(p, 10);
	if (!is(p, end)) fail("no stamp");
	return v;
}
static void take_report_line(u64 stamp, u64 number_, const char *p) {
	if (is(&p, "Hardware error from APEI Generic Hardware Error Source: ")) {
		end_report();
		memset(&report, 0, sizeof report);
		report.is_open = 1;
		report.number = number_;
		report.first = stamp;
		report.source = number(&p, 10);
	} else if (!report.is_open || number_ != report.number) fail("a line of no report");
	else if (is(&p, "event severity: corrected")) report.has_severity = 1;
	else if (is(&p, "  section_type: ")) {
		if (strcmp(p, "memory error")) fail("another section");
	} else if (is(&p, "  physical_address: 0x")) set(report.memory, 1, 16, number(&p, 16), 8);
	else if (is(&p, "  error_type: ")) set(report.memory, 14, 72, number(&p, 10), 1);
	else if (is(&p, "  ")) read_places(report.memory, p);
	report.last = stamp;
}
static void take_log_line(const char *p) {
	const char *mark = strchr(p, '{');
	p++;
	u64 stamp = stamp_at(&p, "] "), number_;
	if (mark == p++) {
		number_ = number(&p, 10);
		if (is(&p, "}[Hardware Error]: ")) {
			take_report_line(stamp, number_, p);
			return;
		}
	}
	if (stamp > report.last + 100000) end_report();
}

static void take_memory_event(u64 stamp, const char *p) {
	u8 section[MEMORY] = {0};
	if (!strstr(p, "Corrected error: single-bit ECC on ")) fail("another error");
	for (const char *q = p; (q = strstr(q, " (mc:")); q++) p = q;
	const char *address = strstr(p, " address:0x"), *grain = strstr(p, " grain:"), *places = strstr(p, " APEI location: ");
	if (!address || !grain || !places) fail("another driver");
	address += 11, grain += 7;
	set(section, 1, 16, number(&address, 16), 8);
	set(section, 2, 24, -number(&grain, 10), 8);
	set(section, 14, 72, 2, 1);
	read_places(section, places + 16);
	push_block(NO_SOURCE, stamp, of_memory, section, MEMORY);
}
/* The number behind a byte. */
static u64 next(const char **p) {
	++*p;
	return number(p, 16);
}
static void take_pcie_event(u64 stamp, const char *p) {
	static const struct {
		const char *name;
		unsigned bit;
	} bits[] = {{"Receiver Error", 0}, {"Bad TLP", 6}, {"Bad DLLP", 7}, {"RELAY_NUM Rollover", 8}, {"Replay Timer Timeout", 12}};
	u8 section[PCIE] = {0x88};
	u64 status = 0, segment = number(&p, 16), bus = next(&p), device = next(&p), function = next(&p);
	if (!is(&p, " PCIe Bus Error: severity=Corrected, ")) fail("another severity");
	for (size_t i = 0; i < sizeof bits / sizeof *bits; i++)
		if (is(&p, bits[i].name)) {
			status |= 1u << bits[i].bit;
			p += *p == '|';
		}
	if (strcmp(p, ", TLP Header=Not available")) fail("another bit");
	section[31] = function;
	section[32] = device;
	put(section + 33, segment, 2);
	section[35] = bus;
	put(section + 128, status, 4);
	push_block(NO_SOURCE, stamp, of_pcie, section, PCIE);
}
static void take_event(const char *line, const char *at, int is_memory) {
	const char *stamp = at, *event = at + (is_memory ? 10 : 11);
	while (stamp > line && stamp[-1] == ' ') stamp--;
	while (stamp > line && stamp[-1] != ' ') stamp--;
	u64 v = stamp_at(&stamp, ": ");
	if (is_memory) take_memory_event(v, event);
	else take_pcie_event(v, event);
}
static void take(const char *p) {
	const char *at;
	if (*p == '[') take_log_line(p);
	else if ((at = strstr(p, "mc_event: "))) take_event(p, at, 1);
	else if ((at = strstr(p, "aer_event: "))) take_event(p, at, 0);
}
static void print_out(void) { print(&out); }

int main(int argc, char **argv) {
	if (argc != 3) fail("usage: ghes BOOT BEGAN");
	boot = strtoull(argv[1], 0, 10);
	began = strtoull(argv[2], 0, 10);
	read_lines(take, print_out);
	print(&out);
	return 0;
}
