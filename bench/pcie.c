/* pcie: does in plain C what `rasd pcie` does with lines `ghes` and with lines that it ignores: it reads each block, prints a
   line for each PCI Express section of a new name, and counts the bits of each device, in the same bytes. It prints
   everything at the end. A line `put` ends it. */
#include "text.h"

typedef struct {
	u64 boot, source, number;
} Key;
typedef struct {
	uint16_t segment, vendor, id;
	u8 is_told, bus, device, function;
	u64 uncor, cor;
} Device;
enum { SLOTS = 1 << 19, DEVICES = 4096, HEAD = 20, SECTION = 208 };

static Text out;
static u8 digit[256], block[20000], is_used[SLOTS];
static Key slot[SLOTS];
static Device devices[DEVICES];
static size_t device_count;
static u64 sections, names;
static const char *const uncorrectable[32] = {
	[4] = "data-link", "surprise-down", [12] = "poisoned-tlp", "flow-control", "completion-timeout", "completer-abort",
	"unexpected-completion", "receiver-overflow", "malformed-tlp", "ecrc", "unsupported-request", "acs-violation",
	"internal", "mc-blocked", "atomic-blocked", "prefix-blocked"};
static const char *const correctable[32] = {
	"receiver-error", [6] = "bad-tlp", "bad-dllp", "replay-rollover", [12] = "replay-timeout", "advisory",
	"corrected-internal", "header-overflow"};

static u64 word(const char **p) {
	while (**p == ' ') ++*p;
	const char *start = *p;
	u64 v = number(p, 10);
	if (*p == start || *p - start > 20 || **p != ' ') fail("a word is no number");
	return v;
}
static u64 bytes_at(const u8 *p, int n) {
	u64 v = 0;
	memcpy(&v, p, n);
	return v;
}
/* Names the bits of a word, and counts them. */
static int bits(u64 word, const char *const *named) {
	int count = 0;
	for (int i = 0; i < 32; i++) {
		if (!(word >> i & 1)) continue;
		if (count++) str(&out, ",");
		if (named[i]) str(&out, named[i]);
		else {
			str(&out, "bit-");
			dec(&out, i);
		}
	}
	if (!count) str(&out, "-");
	return count;
}
static void place(const Device *d) {
	str(&out, d->is_told ? "" : "-");
	if (!d->is_told) return;
	hex(&out, d->segment, 4);
	str(&out, ":");
	hex(&out, d->bus, 2);
	str(&out, ":");
	hex(&out, d->device, 2);
	str(&out, ".");
	hex(&out, d->function, d->function > 15 ? 2 : 1);
}
static Device *device_like(const Device *d) {
	for (size_t i = 0; i < device_count; i++)
		if (!memcmp(&devices[i], d, offsetof(Device, uncor))) return &devices[i];
	if (device_count == DEVICES) fail("too many devices");
	devices[device_count] = *d;
	return &devices[device_count++];
}
static void section(const Key *key, u64 severity, const u8 *p, size_t length) {
	static const char *const classes[] = {"recoverable", "fatal", "corrected", "informational"};
	Device d = {0};
	str(&out, "pcie block=");
	dec(&out, key->boot);
	str(&out, "/");
	dec(&out, key->source);
	str(&out, "/");
	dec(&out, key->number);
	if (length < SECTION) {
		str(&out, " short\n");
		return;
	}
	if (p[0] >> 3 & 1) {
		d = (Device){bytes_at(p + 33, 2), bytes_at(p + 24, 2), bytes_at(p + 26, 2), 1, p[35], p[32], p[31], 0, 0};
	}
	Device *counted = device_like(&d);
	str(&out, " device=");
	place(&d);
	str(&out, " id=");
	if (d.is_told) {
		hex(&out, d.vendor, 4);
		str(&out, ":");
		hex(&out, d.id, 4);
	} else str(&out, "-");
	str(&out, " severity=");
	str(&out, classes[severity & 3]);
	str(&out, " uncor=");
	counted->uncor += bits(p[0] >> 7 ? bytes_at(p + 116, 4) : 0, uncorrectable);
	str(&out, " cor=");
	counted->cor += bits(p[0] >> 7 ? bytes_at(p + 128, 4) : 0, correctable);
	str(&out, "\n");
	sections++;
}
/* Reads a word of bytes into the block, and tells how many there are. */
static size_t read_bytes(const char *p) {
	size_t count = 0;
	while (*p == ' ') p++;
	for (; *p && *p != ' '; p += 2) {
		u8 high = digit[(u8)p[0]], low = digit[(u8)p[1]];
		if (high > 15 || low > 15) fail("no word of bytes");
		block[count++] = high << 4 | low;
	}
	return count;
}
/* The place of a name among those that had sections, or where it is to be. */
static size_t slot_of(const Key *key) {
	u64 h = (key->boot * 31 + key->source * 257 + key->number) * 0x9E3779B97F4A7C15u >> 45;
	for (;; h++)
		if (!is_used[h &= SLOTS - 1] || !memcmp(&slot[h], key, sizeof *key)) return h;
}
static void line(const char *p) {
	static const u8 type[16] = {0x54, 0xe9, 0x95, 0xd9, 0xc1, 0xbb, 0x0f, 0x43,
	                            0xad, 0x91, 0xb4, 0x4d, 0xcb, 0x3c, 0x6f, 0x35};
	Key key;
	while (*p == ' ') p++;
	if (!strncmp(p, "put ", 4)) fail("a line `put`");
	if (strncmp(p, "ghes ", 5)) return;
	p += 5;
	key.boot = word(&p);
	word(&p);
	key.source = word(&p);
	key.number = word(&p);
	size_t count = read_bytes(p), end = HEAD + (count < HEAD ? 0 : bytes_at(block + 12, 4)), before = out.n, at = HEAD;
	if (count < end || !bytes_at(block, 4)) return;
	size_t its = slot_of(&key);
	if (is_used[its]) return;
	while (at < end) {
		size_t head = end - at >= 64 && block[at + 21] >= 3 ? 72 : 64, length;
		if (end - at < head) fail("an entry passes the end");
		length = bytes_at(block + at + 24, 4);
		if (end - at - head < length) fail("an entry passes the end");
		if (!memcmp(block + at, type, 16)) section(&key, bytes_at(block + at + 16, 4), block + at + head, length);
		at += head + length;
	}
	if (out.n == before) return;
	is_used[its] = 1;
	slot[its] = key;
	if (++names > SLOTS / 2) fail("too many names");
}

int main(void) {
	memset(digit, 255, sizeof digit);
	for (int i = 0; i < 16; i++) digit[(u8)"0123456789abcdef"[i]] = digit[(u8)"0123456789ABCDEF"[i]] = i;
	read_lines(line, NULL);
	for (size_t i = 0; i < device_count; i++) {
		str(&out, "device=");
		place(&devices[i]);
		str(&out, " uncor=");
		dec(&out, devices[i].uncor);
		str(&out, " cor=");
		dec(&out, devices[i].cor);
		str(&out, "\n");
	}
	str(&out, "end sections=");
	dec(&out, sections);
	str(&out, " devices=");
	dec(&out, device_count);
	str(&out, "\n");
	print(&out);
	return 0;
}
