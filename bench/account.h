/* The account that plain.c keeps: the names, pages and modules of corrected errors, with their limits, as a
   checkpoint of version 2 has them (docs/FORMATS.md). Names and pages are looked up by hash. */
#include "text.h"

/* As it stands in a checkpoint and in a link. */
typedef struct __attribute__((packed)) {
	u8 kind;
	u64 boot;
	uint16_t cpu;
	u8 bank;
	u64 tsc;
} Name;
typedef struct {
	u64 page, count, stamp;
	u8 state;
} Page;
typedef struct {
	char label[33];
	u64 sums[10];
	u8 has_bucket, is_replaced;
	u64 count, stamp;
} Row;
enum { MOST = 200000, SLOTS = 1 << 19, LABELS = 4098 };

static Name names[MOST];
static Page pages[MOST];
static Row rows[LABELS];
static uint32_t name_at[SLOTS], page_at[SLOTS];
static size_t name_count, page_count, row_count;
static u64 entries, retired_below, page_limit[2] = {10, 86400}, module_limit[2] = {100, 86400};

static u64 mix(u64 v) {
	v ^= v >> 32;
	v *= 0x9E3779B97F4A7C15u;
	return v ^ v >> 29;
}
/* Where the place of a name stands, counted from 1, or is to stand. */
static uint32_t *slot_of_name(const Name *n) {
	for (u64 h = mix(n->boot * 31 + n->tsc) + mix(n->cpu * 256u + n->bank);; h++) {
		uint32_t *slot = &name_at[h & (SLOTS - 1)];
		if (!*slot || !memcmp(&names[*slot - 1], n, sizeof *n)) return slot;
	}
}
static uint32_t *slot_of_page(u64 page) {
	for (u64 h = mix(page);; h++) {
		uint32_t *slot = &page_at[h & (SLOTS - 1)];
		if (!*slot || pages[*slot - 1].page == page) return slot;
	}
}

static void order_page(Text *t, const Page *p) {
	str(t, "order soft page=");
	hex(t, p->page << 12, 16);
	str(t, "\n");
}
static void order_module(Text *t, const Row *r) {
	str(t, "order module label=");
	str(t, r->label);
	str(t, "\n");
}
static void orders(Text *t) {
	for (size_t i = 0; i < page_count; i++)
		if (pages[i].state) order_page(t, &pages[i]);
	for (size_t i = 0; i < row_count; i++)
		if (rows[i].is_replaced) order_module(t, &rows[i]);
}

/* Counts an error in a bucket, and tells whether it reaches the limit. */
static int reaches(u64 *count, u64 *stamp, const u64 *limit, u64 now, u64 weight) {
	u64 passed = now > *stamp ? now - *stamp : 0;
	if (passed >= limit[1]) {
		u64 gone = passed * limit[0] / limit[1];
		*count -= gone < *count ? gone : *count;
		*stamp = now;
	}
	*count += weight;
	if (*count < limit[0]) return 0;
	*count = 0;
	return 1;
}
/* Counts a corrected error of a new name, and puts the orders that it gives behind the text. */
static void count_error(Text *t, const Name *n, u64 now, const char *label, int64_t page, u64 weight) {
	size_t at = 0;
	int is_due = 0;
	if (name_count == MOST) fail("too many names");
	names[name_count] = *n;
	*slot_of_name(n) = ++name_count;
	entries++;
	while (at < row_count && strcmp(rows[at].label, label)) at++;
	Row *row = &rows[at];
	if (at == row_count) {
		strcpy(row->label, label);
		row_count++;
	}
	row->sums[0] += weight;
	if (*label) {
		if (!row->has_bucket) row->stamp = now;
		row->has_bucket = 1;
		is_due = reaches(&row->count, &row->stamp, module_limit, now, weight) && !row->is_replaced;
		row->is_replaced |= is_due;
	}
	if (page >= 0) {
		uint32_t *slot = slot_of_page(page);
		if (!*slot) {
			pages[page_count] = (Page){page, 0, now, 0};
			*slot = ++page_count;
		}
		Page *p = &pages[*slot - 1];
		if (reaches(&p->count, &p->stamp, page_limit, now, weight) && !p->state) {
			p->state = 1;
			order_page(t, p);
		}
	}
	if (is_due) order_module(t, row);
}

static void push_checkpoint(Text *t) {
	add(t, page_limit, 16);
	add(t, module_limit, 16);
	num(t, entries, 8);
	num(t, retired_below, 8);
	num(t, name_count, 8);
	add(t, names, name_count * sizeof *names);
	num(t, row_count, 8);
	for (const Row *r = rows; r < rows + row_count; r++) {
		size_t length = strlen(r->label);
		num(t, length, 1);
		add(t, r->label, length);
		add(t, r->sums, 80);
		num(t, r->has_bucket, 1);
		if (!r->has_bucket) continue;
		num(t, r->count, 8);
		num(t, r->stamp, 8);
		num(t, r->is_replaced, 1);
	}
	num(t, page_count, 8);
	for (const Page *p = pages; p < pages + page_count; p++) {
		add(t, p, 24);
		num(t, p->state, 1);
	}
}

/* The number of so many bytes that stands there, which is passed over. */
static u64 get(const char **p, size_t n) {
	u64 v = 0;
	memcpy(&v, *p, n);
	*p += n;
	return v;
}
static void get_bytes(void *to, const char **p, size_t n) {
	memcpy(to, *p, n);
	*p += n;
}
/* Reads a checkpoint, and gives its end. */
static const char *read_checkpoint(const char *p) {
	get_bytes(page_limit, &p, 16);
	get_bytes(module_limit, &p, 16);
	entries = get(&p, 8);
	retired_below = get(&p, 8);
	name_count = get(&p, 8);
	if (name_count > MOST) fail("too many names");
	for (size_t i = 0; i < name_count; i++) {
		get_bytes(&names[i], &p, sizeof *names);
		*slot_of_name(&names[i]) = i + 1;
	}
	row_count = get(&p, 8);
	for (Row *r = rows; r < rows + row_count; r++) {
		get_bytes(r->label, &p, get(&p, 1));
		get_bytes(r->sums, &p, 80);
		r->has_bucket = get(&p, 1);
		if (!r->has_bucket) continue;
		r->count = get(&p, 8);
		r->stamp = get(&p, 8);
		r->is_replaced = get(&p, 1);
	}
	page_count = get(&p, 8);
	for (size_t i = 0; i < page_count; i++) {
		get_bytes(&pages[i], &p, 24);
		pages[i].state = get(&p, 1);
		*slot_of_page(pages[i].page) = i + 1;
	}
	return p;
}
