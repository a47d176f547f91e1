/* plain: does in plain C what `rasd run` and `rasd load` do with lines `bank`, `cpu` and `module`, with comments and with
   empty lines. It prints the same bytes and leaves the same rasd.0 and rasd.1, after as many writes and syncs;
   bench/bytes checks the bytes. It doesn't handle other lines, errors other than corrected ones of memory, and damaged
   journals.

   plain run             the counterpart of `rasd run`: standard input, over the journal of the folder
   plain load N          the counterpart of `rasd load N`, with the journal and the text in memory
   plain load N FOLDER   also writes the script, the journal and the text there, which are those of a run */
#include <fcntl.h>

#include "account.h"

enum { LINKS = 256, FRONT = 25, MODULES = 4096, SOCKETS = 256, BANKS = 256, CHANNELS = 16 };
static const u8 OPEN_GATE = 0xA5, SHUT_GATE = 0;

/* Of each place the first module there, and how many there are. */
static struct {
	uint16_t first, count;
} place[SOCKETS][BANKS][CHANNELS];
static char label_of[MODULES][33];
static int module_count, socket_of[65536];

/* The journal: its files, or what would be in them, the current one, and the gate at the end of its chain. */
static int fd[2] = {-1, -1}, is_shut[2], current;
static size_t size[2];
static Text file[2], out, text, front, link_;
static u64 generation, links, line_count;
static size_t gate;

/* Syncs a file, a short one whole. */
static void sync_file(int f) {
	if (size[f] <= 4096 ? fsync(fd[f]) : fdatasync(fd[f])) fail("a journal file can't be synced");
}
/* Writes into a file and syncs it, or into its copy in memory. */
static void put(int f, size_t at, const void *p, size_t n) {
	if (fd[f] >= 0) {
		if (pwrite(fd[f], p, n, at) != (ssize_t)n) fail("a write failed");
		if (at + n > size[f]) size[f] = at + n;
		sync_file(f);
		return;
	}
	size_t after = file[f].n - at, over = n < after ? n : after;
	if (over) memcpy(file[f].b + at, p, over);
	add(&file[f], (const u8 *)p + over, n - over);
}
static void tell(void) {
	if (fd[0] < 0) {
		add(&out, text.b, text.n);
		text.n = 0;
	} else print(&text);
}

/* Writes a file anew, with the account as its checkpoint. */
static void write_file(int f) {
	front.n = 0;
	str(&front, "RASJRNL2");
	num(&front, generation, 8);
	num(&front, 0, 8);
	push_checkpoint(&front);
	u64 length = front.n - 24;
	memcpy(front.b + 16, &length, 8);
	num(&front, SHUT_GATE, 1);
	if (!is_shut[f]) put(f, 0, &SHUT_GATE, 1);
	put(f, 1, front.b, front.n);
	put(f, 0, &OPEN_GATE, 1);
	is_shut[f] = 0;
	current = f;
	links = 0;
	gate = FRONT + length;
}
static void append(const Name *n, u64 now, const char *label, int64_t page, u64 weight) {
	size_t length = strlen(label);
	link_.n = 0;
	num(&link_, 0, 4);
	num(&link_, 1, 4);
	num(&link_, 1, 1);
	add(&link_, n, sizeof *n);
	num(&link_, now, 8);
	num(&link_, 1, 2);
	num(&link_, 0, 1);
	num(&link_, length, 1);
	add(&link_, label, length);
	num(&link_, page >= 0, 1);
	if (page >= 0) num(&link_, page, 8);
	num(&link_, weight, 2);
	uint32_t payload = link_.n - 4;
	memcpy(link_.b, &payload, 4);
	num(&link_, SHUT_GATE, 1);
	if (links == LINKS) {
		generation++;
		write_file(!current);
	}
	put(current, gate + 1, link_.b, link_.n);
	put(current, gate, &OPEN_GATE, 1);
	gate += link_.n;
	links++;
}
static void read_file(void) {
	const char *p = read_checkpoint(file[current].b + FRONT);
	for (links = 0; (u8)*p == OPEN_GATE; links++) {
		char label[256] = "";
		Name n;
		p += 10;
		get_bytes(&n, &p, sizeof n);
		u64 now = get(&p, 8);
		p += 3;
		get_bytes(label, &p, get(&p, 1));
		int64_t page = get(&p, 1) ? (int64_t)get(&p, 8) : -1;
		count_error(&text, &n, now, label, page, get(&p, 2));
	}
	text.n = 0;
	gate = p - file[current].b;
}
/* Opens the journal of the folder or begins one, and tells the orders that stand. */
static void open_journal(void) {
	static const char *const name[] = {"rasd.0", "rasd.1"};
	for (int f = 0; f < 2; f++)
		if ((fd[f] = open(name[f], O_RDWR | O_CREAT, 0640)) < 0) fail("a journal file can't be opened");
	int folder = open(".", O_RDONLY | O_DIRECTORY);
	if (folder < 0 || fsync(folder)) fail("the folder can't be synced");
	close(folder);
	for (int f = 0; f < 2; f++) {
		u64 its = 0;
		size[f] = file[f].n = lseek(fd[f], 0, SEEK_END);
		sync_file(f);
		file[f].b = malloc(file[f].n + 1);
		if (!file[f].b || pread(fd[f], file[f].b, file[f].n, 0) != (ssize_t)file[f].n) fail("a journal file can't be read");
		is_shut[f] = file[f].n > 1 && (u8)file[f].b[0] != OPEN_GATE;
		if (file[f].n > FRONT && !is_shut[f]) memcpy(&its, file[f].b + 9, 8);
		if (its > generation) {
			generation = its;
			current = f;
		}
	}
	if (generation) read_file();
	else {
		generation = 1;
		write_file(0);
	}
	orders(&text);
	tell();
}

static u64 word(const char **p, unsigned base, u64 most) {
	while (**p == ' ') ++*p;
	const char *start = *p;
	u64 v = number(p, base);
	if (*p == start || *p - start > 20 || (**p && **p != ' ' && **p != '\n') || v > most) fail("a word is no number");
	return v;
}
static void take_bank(const char *p) {
	const u64 any = UINT64_MAX;
	Bank b;
	b.boot = word(&p, 10, any);
	b.seconds = word(&p, 10, any);
	b.cpu = word(&p, 10, 65535);
	b.bank = word(&p, 10, 255);
	b.tsc = word(&p, 10, any);
	b.cap = word(&p, 16, any);
	b.mcg = word(&p, 16, any);
	b.status = word(&p, 16, any);
	b.addr = word(&p, 16, any);
	b.misc = word(&p, 16, any);
	Name n = {1, b.boot, b.cpu, b.bank, b.tsc};
	if (*slot_of_name(&n)) {
		name_of(&text, "repeat bank=", &b);
		str(&text, "\n");
		tell();
		return;
	}
	int socket = socket_of[b.cpu] - 1, channel = b.status & 15;
	int is_one = socket >= 0 && place[socket][b.bank][channel].count == 1;
	const char *label = is_one ? label_of[place[socket][b.bank][channel].first] : "";
	log_line(&text, &b, label);
	append(&n, b.seconds, label, page_of(&b), weight_of(&b));
	count_error(&text, &n, b.seconds, label, page_of(&b), weight_of(&b));
	tell();
}
static void take_module(const char *p) {
	size_t length = strcspn(p, " ");
	if (length > 32 || module_count == MODULES) fail("a module too many");
	memcpy(label_of[module_count], p, length);
	p += length;
	u64 socket = word(&p, 10, 255), bank = word(&p, 10, 255), channel = word(&p, 10, 14);
	if (!place[socket][bank][channel].count++) place[socket][bank][channel].first = module_count;
	module_count++;
}
static void take_line(const char *p) {
	line_count++;
	while (*p == ' ') p++;
	if (*p == '#' || !*p || *p == '\n') return;
	if (!strncmp(p, "bank ", 5)) take_bank(p + 5);
	else if (!strncmp(p, "module ", 7)) take_module(p + 7);
	else if (!strncmp(p, "cpu ", 4)) {
		p += 4;
		u64 cpu = word(&p, 10, 65535);
		socket_of[cpu] = word(&p, 10, 255) + 1;
	} else fail("a line of another kind");
	str(&text, "done ");
	dec(&text, line_count);
	str(&text, "\n");
	tell();
}
static void end(void) {
	str(&text, "end entries=");
	dec(&text, entries);
	str(&text, " names=");
	dec(&text, name_count);
	str(&text, "\n");
	tell();
}

static void make_script(Text *t, u64 lines) {
	u64 x = 1, before = 1;
	str(t, "cpu 0 0\nmodule M0 0 7 0\nmodule M1 0 7 1\nmodule M2 0 7 2\nmodule M3 0 7 3\n");
	for (u64 i = 1; i <= lines; i++) {
		char line[128];
		before = x;
		x = x * 6364136223846793005u + 1442695040888963407u;
		unsigned long it = i % 10 ? i : i - 1, r = (i % 10 ? x : before) >> 33;
		const char *form = "bank 1 %lu 0 7 %lu 1000c14 0 8c0000400001009%lx %lx 86\n";
		add(t, line, sprintf(line, form, 1000 + it, it, r / 1000 % 4, (r % 1000 + 1) * 4096));
	}
	num(t, 0, 1);
}
static void load(u64 lines, const char *folder) {
	static const char *const name[] = {"script", "rasd.0", "rasd.1", "text"};
	Text script = {0}, *whole[] = {&script, &file[0], &file[1], &out};
	u64 corrected = 0, soft = 0;
	make_script(&script, lines);
	generation = 1;
	write_file(0);
	for (const char *p = script.b; *p; p = strchr(p, '\n') + 1) take_line(p);
	end();
	for (size_t i = 0; i < row_count; i++) corrected += rows[i].sums[0];
	for (size_t i = 0; i < page_count; i++) soft += pages[i].state == 1;
	printf("load n=%lu names=%zu CE=%lu soft=%lu hard=0\n", lines, name_count, corrected, soft);
	script.n--;
	if (folder && chdir(folder)) fail("there is no such folder");
	for (int i = 0; folder && i < 4; i++) {
		FILE *f = fopen(name[i], "w");
		if (!f || fwrite(whole[i]->b, 1, whole[i]->n, f) != whole[i]->n || fclose(f)) fail("a file can't be written");
	}
}

int main(int argc, char **argv) {
	if (argc == 2 && !strcmp(argv[1], "run")) {
		open_journal();
		read_lines(take_line, NULL);
		end();
	} else if (argc > 2 && !strcmp(argv[1], "load")) load(strtoull(argv[2], 0, 10), argc > 3 ? argv[3] : NULL);
	else fail("usage: plain run | load N [FOLDER]");
	return 0;
}
