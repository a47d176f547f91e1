/* spent PROGRAM WORD..: runs a program with its output going into a file in memory, and prints its processor time in
   microseconds, or, if MOST_MEMORY is set, the most memory that it had, in KiB. With /dev/null as its output GNU grep
   would stop at the first line that it finds. */
#define _GNU_SOURCE
#include <stdio.h>
#include <stdlib.h>
#include <sys/mman.h>
#include <sys/resource.h>
#include <sys/wait.h>
#include <unistd.h>

int main(int argc, char **argv) {
	struct rusage used;
	int status;
	pid_t child = argc > 1 ? fork() : -1;
	if (!child) {
		if (dup2(memfd_create("output", 0), 1) == 1) execvp(argv[1], argv + 1);
		_exit(127);
	}
	if (child < 0 || wait4(child, &status, 0, &used) < 0 || status) return 1;
	if (getenv("MOST_MEMORY")) return printf("%ld\n", used.ru_maxrss) < 0;
	long seconds = used.ru_utime.tv_sec + used.ru_stime.tv_sec;
	printf("%ld\n", seconds * 1000000 + used.ru_utime.tv_usec + used.ru_stime.tv_usec);
	return 0;
}
