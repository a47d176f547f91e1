/* klog BOOT CAP: does in plain C what `rasd klog BOOT CAP` does with a log of corrected memory errors: it finds the three
   lines of each report and prints its `log` line, and at the end their number, in the same bytes. Like rasd it prints the
   text before it reads the log again. */
#include "text.h"

static Text out;
static Bank bank;
static u64 reports, cut;
/* How much of the report in work is read: 0 nothing, 1 its first line, 2 its second one too. */
static int stage;

/* Passes over a text, if it stands there. */
static int is(const char **p, const char *text) {
	size_t n = strlen(text);
	if (strncmp(*p, text, n)) return 0;
	*p += n;
	return 1;
}
static void end_report(void) {
	if (stage) {
		cut++;
		str(&out, "partial cpu=");
		dec(&out, bank.cpu);
		str(&out, " bank=");
		dec(&out, bank.bank);
		str(&out, "\n");
	}
	stage = 0;
}
static void begin_report(const char *p) {
	Bank b = bank;
	b.cpu = number(&p, 10);
	b.addr = b.misc = 0;
	if (!is(&p, ": Machine Check: ") && !is(&p, ": Machine Check Exception: ")) return;
	b.mcg = number(&p, 16);
	if (!is(&p, " Bank ")) return;
	b.bank = number(&p, 10);
	if (!is(&p, ": ")) return;
	b.status = number(&p, 16);
	end_report();
	bank = b;
	stage = 1;
}
static void line(const char *p) {
	p = strstr(p, "[Hardware Error]: ");
	if (!p) return;
	p += 18;
	if (is(&p, "CPU ")) begin_report(p);
	else if (stage == 1 && is(&p, "TSC ")) {
		stage = 2;
		bank.tsc = number(&p, 16);
		if (is(&p, " ADDR ")) bank.addr = number(&p, 16);
		if (is(&p, " MISC ")) bank.misc = number(&p, 16);
	} else if (stage == 2 && is(&p, "PROCESSOR ")) {
		number(&p, 10);
		if (!is(&p, ":")) return;
		number(&p, 16);
		if (!is(&p, " TIME ")) return;
		bank.seconds = number(&p, 10);
		stage = 0;
		if (bank.status >> 63) {
			reports++;
			log_line(&out, &bank, "");
		}
	}
}
static void print_out(void) { print(&out); }

int main(int argc, char **argv) {
	if (argc != 3) fail("usage: klog BOOT CAP");
	bank.boot = strtoull(argv[1], 0, 10);
	bank.cap = strtoull(argv[2], 0, 16);
	read_lines(line, print_out);
	end_report();
	str(&out, "end reports=");
	dec(&out, reports);
	str(&out, " partial=");
	dec(&out, cut);
	str(&out, "\n");
	print(&out);
	return 0;
}
