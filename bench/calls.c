/* calls: only makes the writes, syncs and prints that `rasd run` needs for a line of a new name. Its time is the program's if
   the program's own work cost nothing.

   calls             for each line of standard input it writes a link of 60 bytes, syncs, opens its gate and syncs; it
                     prints as many bytes as a `log` line and a done line have
   calls all NAMES   after each 256 lines it also writes the other file, with 20 bytes for each of NAMES names and of
                     those that came since, in three writes and syncs, as a switch does */
#define _GNU_SOURCE
#include <fcntl.h>
#include <stdio.h>
#include <stdlib.h>
#include <string.h>
#include <unistd.h>

static int fd[2];

static void put(int file, const void *bytes, size_t count, off_t at) {
	if (pwrite(fd[file], bytes, count, at) != (ssize_t)count || fdatasync(fd[file])) exit(1);
}

int main(int argc, char **argv) {
	static const char *const name[] = {"rasd.0", "rasd.1"};
	static char in[1 << 16], link_[60], said[155], done[32];
	const unsigned char open_gate = 0xA5, shut = 0;
	size_t names = argc > 2 ? strtoul(argv[2], 0, 10) : 0, lines = 0, links = 0, at = 97;
	char *checkpoint = calloc(200 + 20 * (names + 100000), 1);
	int current = 0;
	if (!checkpoint) return 1;
	memset(said, 'x', sizeof said - 1);
	said[sizeof said - 1] = '\n';
	for (int i = 0; i < 2; i++)
		if ((fd[i] = open(name[i], O_RDWR | O_CREAT, 0640)) < 0) return 1;
	for (ssize_t count; (count = read(0, in, sizeof in)) > 0;)
		for (char *p = in; (p = memchr(p, '\n', in + count - p)); p++) {
			if (argc > 1 && links == 256) {
				current = !current;
				links = 0;
				at = 200 + 20 * names;
				put(current, &shut, 1, 0);
				put(current, checkpoint, at, 1);
				put(current, &open_gate, 1, 0);
			}
			put(current, link_, sizeof link_, at + 1);
			put(current, &open_gate, 1, at);
			at += sizeof link_;
			links++;
			names++;
			int length = sprintf(done, "done %zu\n", ++lines);
			if (write(1, said, sizeof said) != (ssize_t)sizeof said || write(1, done, length) != length) return 1;
		}
	return 0;
}
