/* latency COUNT FIRST PROGRAM WORD..: gives a program COUNT lines of new bank names, from the time-stamp FIRST on,
   over a pipe, each once the done line of the one before is there. It prints how long a line and its done line were
   apart, in microseconds: the median, 99 of 100, and the mean of the longest of each 256 lines, which is that with
   the switch to the other journal file. It measures `rasd run` and its counterpart `plain run` alike. */
#define _GNU_SOURCE
#include <stdio.h>
#include <stdlib.h>
#include <string.h>
#include <time.h>
#include <unistd.h>

static int from, to;

static double now(void) {
	struct timespec time;
	clock_gettime(CLOCK_MONOTONIC, &time);
	return time.tv_sec * 1e6 + time.tv_nsec / 1e3;
}
static int by_size(const void *a, const void *b) {
	double x = *(const double *)a, y = *(const double *)b;
	return (x > y) - (x < y);
}
/* Gives a line, and reads up to the end of its done line. */
static void give(const char *line) {
	static char said[1 << 16];
	size_t length = strlen(line), have = 0;
	if (write(to, line, length) != (ssize_t)length) exit(1);
	for (;;) {
		ssize_t count = read(from, said + have, sizeof said - 1 - have);
		if (count <= 0) {
			fprintf(stderr, "latency: the program ended\n");
			exit(1);
		}
		have += count;
		said[have] = 0;
		if (said[have - 1] == '\n' && (!strncmp(said, "done ", 5) || strstr(said, "\ndone "))) return;
	}
}
int main(int argc, char **argv) {
	int in[2], out[2], lines = argc > 3 ? atoi(argv[1]) : 0, switches = lines / 256;
	if (!switches || pipe(in) || pipe(out)) return 1;
	if (!fork()) {
		dup2(in[0], 0);
		dup2(out[1], 1);
		close(in[0]);
		close(in[1]);
		close(out[0]);
		close(out[1]);
		execv(argv[3], argv + 3);
		_exit(127);
	}
	close(in[0]);
	close(out[1]);
	to = in[1];
	from = out[0];
	double *took = calloc(lines, sizeof *took), longest = 0;
	if (!took) return 1;
	give("cpu 0 0\n");
	for (int i = 0; i < lines; i++) {
		char line[128];
		sprintf(line, "bank 2 100 0 7 %d 1000c14 0 8c00004000010090 12345040 86\n", atoi(argv[2]) + i);
		double start = now();
		give(line);
		took[i] = now() - start;
	}
	for (int i = 0; i < switches; i++) {
		double most = 0;
		for (int j = 256 * i; j < 256 * (i + 1); j++)
			if (took[j] > most) most = took[j];
		longest += most;
	}
	qsort(took, lines, sizeof *took, by_size);
	printf("%.2f %.2f %.2f\n", took[lines / 2], took[lines * 99 / 100], longest / switches);
	return 0;
}
