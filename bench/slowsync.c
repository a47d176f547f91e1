/* slowsync: a library for LD_PRELOAD that makes each fsync and fdatasync take SYNC_US microseconds of processor time and do
   nothing else. So over files in memory the ratio of two programs is that over a disk whose flush takes this time, whatever
   else the machine does. `rasd run` and its counterparts both run over it. */
#define _GNU_SOURCE
#include <stdlib.h>
#include <time.h>
#include <unistd.h>

static double now(void) {
	struct timespec time;
	clock_gettime(CLOCK_THREAD_CPUTIME_ID, &time);
	return time.tv_sec * 1e6 + time.tv_nsec / 1e3;
}
static int wait_long(void) {
	static double microseconds = -1;
	if (microseconds < 0) {
		const char *told = getenv("SYNC_US");
		microseconds = told ? atof(told) : 0;
	}
	if (microseconds == 0) return 0;
	for (double start = now(); now() - start < microseconds;);
	return 0;
}

int fsync(int file) {
	(void)file;
	return wait_long();
}
int fdatasync(int file) {
	(void)file;
	return wait_long();
}
