/* refuse_nth.so, by LD_PRELOAD: of the calls of malloc, realloc and calloc that a program makes from its start, the one of
 * which REFUSE_NTH has the number fails, and then the file that REFUSED has the name of is made. */
#define _GNU_SOURCE
#include <dlfcn.h>
#include <errno.h>
#include <fcntl.h>
#include <stdlib.h>
#include <unistd.h>

static void *(*next_malloc)(size_t);
static void *(*next_realloc)(void *, size_t);
static void *(*next_calloc)(size_t, size_t);
static unsigned long until;

__attribute__((constructor)) static void start(void) {
	const char *number = getenv("REFUSE_NTH");
	next_malloc = dlsym(RTLD_NEXT, "malloc");
	next_realloc = dlsym(RTLD_NEXT, "realloc");
	next_calloc = dlsym(RTLD_NEXT, "calloc");
	until = number ? strtoul(number, NULL, 10) : 0;
}

static int refuses(void) {
	if (until == 0 || --until > 0)
		return 0;
	const char *name = getenv("REFUSED");
	if (name)
		close(open(name, O_CREAT | O_WRONLY, 0600));
	errno = ENOMEM;
	return 1;
}

void *malloc(size_t size) {
	return refuses() ? NULL : next_malloc(size);
}

void *realloc(void *block, size_t size) {
	return refuses() ? NULL : next_realloc(block, size);
}

void *calloc(size_t count, size_t size) {
	return refuses() ? NULL : next_calloc(count, size);
}
