/* peers KIND FILE: keeps each error of the `bank` lines of standard input in another way than rasd, one by one, and
   prints a line once it is kept.

   peers sqlite FILE   a row a transaction in SQLite as it is by default, as rasdaemon keeps errors
   peers wal FILE      the same with a write-ahead log that is synced at each transaction
   peers tee FILE      a line appended and synced */
#include "text.h"
#include <fcntl.h>
#include <sqlite3.h>

static const char *const table =
	"CREATE TABLE mce_record (id INTEGER PRIMARY KEY, timestamp TEXT, mcgcap INTEGER, mcgstatus INTEGER, status INTEGER,"
	" addr INTEGER, misc INTEGER, ip INTEGER, tsc INTEGER, walltime INTEGER, cpu INTEGER, cpuid INTEGER, apicid INTEGER,"
	" socketid INTEGER, cs INTEGER, bank INTEGER, cpuvendor INTEGER, bank_name TEXT, error_msg TEXT, mcgstatus_msg TEXT,"
	" mcistatus_msg TEXT, mcastatus_msg TEXT, user_action TEXT, mc_location TEXT)";
static const char *const insert = "INSERT INTO mce_record (timestamp, mcgcap, mcgstatus, status, addr, misc, tsc, walltime,"
	" cpu, bank, cpuvendor, bank_name, error_msg) VALUES (?, ?, ?, ?, ?, ?, ?, ?, ?, ?, 0, ?, ?)";
static sqlite3 *base;
static sqlite3_stmt *row;
static int file;
static Text out;

static void must(int code) {
	if (code != SQLITE_OK && code != SQLITE_DONE && code != SQLITE_ROW) fail("a call of SQLite failed");
}
static u64 next(const char **p, unsigned radix) {
	while (**p == ' ') ++*p;
	return number(p, radix);
}
static void open_base(const char *name, int is_wal) {
	must(sqlite3_open(name, &base));
	if (is_wal) must(sqlite3_exec(base, "PRAGMA journal_mode=WAL; PRAGMA synchronous=FULL", 0, 0, 0));
	must(sqlite3_exec(base, table, 0, 0, 0));
	must(sqlite3_prepare_v2(base, insert, -1, &row, 0));
}
static void say(const char *line) {
	str(&out, line);
	str(&out, "\n");
}
static void keep_row(const char *line) {
	const char *p = line + 4;
	u64 boot = next(&p, 10), seconds = next(&p, 10), cpu = next(&p, 10), bank = next(&p, 10), tsc = next(&p, 10);
	(void)boot;
	must(sqlite3_bind_text(row, 1, "2026-11-30 07:40:00 +0000", -1, SQLITE_STATIC));
	for (int i = 2; i <= 6; i++) must(sqlite3_bind_int64(row, i, next(&p, 16)));
	must(sqlite3_bind_int64(row, 7, tsc));
	must(sqlite3_bind_int64(row, 8, seconds));
	must(sqlite3_bind_int64(row, 9, cpu));
	must(sqlite3_bind_int64(row, 10, bank));
	must(sqlite3_bind_text(row, 11, "bank=7", -1, SQLITE_STATIC));
	must(sqlite3_bind_text(row, 12, "MEMORY CONTROLLER RD_CHANNEL0_ERR", -1, SQLITE_STATIC));
	must(sqlite3_step(row));
	must(sqlite3_reset(row));
	say(line);
	print(&out);
}
static void keep_line(const char *line) {
	say(line);
	if (write(file, out.b, out.n) != (ssize_t)out.n || fdatasync(file)) fail("a write failed");
	print(&out);
}

int main(int argc, char **argv) {
	if (argc != 3) fail("usage: peers sqlite|wal|tee FILE");
	if (!strcmp(argv[1], "tee")) {
		if ((file = open(argv[2], O_WRONLY | O_CREAT | O_APPEND, 0640)) < 0) fail("the file can't be opened");
		read_lines(keep_line, NULL);
		return 0;
	}
	open_base(argv[2], !strcmp(argv[1], "wal"));
	read_lines(keep_row, NULL);
	return 0;
}
