/* An allocator to be loaded before the C library: it counts the calls that ask for memory, and refuses the one whose
   number stands in REFUSE, or each from that number on where REFUSE_ALL is set. At the end it writes how many there
   were to the descriptor in REFUSE_COUNT, if that is set. Calls before the program's own `main` count too; the C
   library's own loader doesn't come here. */
#define _GNU_SOURCE
#include <dlfcn.h>
#include <errno.h>
#include <stdatomic.h>
#include <stdio.h>
#include <stdlib.h>
#include <sys/syscall.h>
#include <unistd.h>

static atomic_long asked;
static long refused = -1;
static int all, ready;
static void *(*real_malloc)(size_t);
static void *(*real_calloc)(size_t, size_t);
static void *(*real_realloc)(void *, size_t);
static void *(*real_aligned_alloc)(size_t, size_t);
static int (*real_posix_memalign)(void **, size_t, size_t);

/* What the loader asks for while the real functions are looked up. */
static char early[65536];
static size_t early_taken;

static void *early_block(size_t size) {
	size_t at = early_taken;
	early_taken += (size + 15) & ~(size_t)15;
	if (early_taken > sizeof early)
		abort();
	return early + at;
}

static int is_early(void *block) {
	return (char *)block >= early && (char *)block < early + sizeof early;
}

__attribute__((constructor)) static void prepare(void) {
	const char *number = getenv("REFUSE");
	real_malloc = dlsym(RTLD_NEXT, "malloc");
	real_calloc = dlsym(RTLD_NEXT, "calloc");
	real_realloc = dlsym(RTLD_NEXT, "realloc");
	real_aligned_alloc = dlsym(RTLD_NEXT, "aligned_alloc");
	real_posix_memalign = dlsym(RTLD_NEXT, "posix_memalign");
	all = getenv("REFUSE_ALL") != NULL;
	if (number)
		refused = atol(number);
	ready = 1;
}

/* Whether this call is to be refused. */
static int refuse(void) {
	long number = atomic_fetch_add(&asked, 1) + 1;
	if (number == refused || (all && refused > 0 && number > refused)) {
		errno = ENOMEM;
		return 1;
	}
	return 0;
}

void *malloc(size_t size) {
	if (!ready)
		return early_block(size);
	return refuse() ? NULL : real_malloc(size);
}

void *calloc(size_t count, size_t size) {
	if (!ready)
		return early_block(count * size);
	return refuse() ? NULL : real_calloc(count, size);
}

void *realloc(void *block, size_t size) {
	if (!ready || is_early(block))
		abort();
	return refuse() ? NULL : real_realloc(block, size);
}

void *aligned_alloc(size_t align, size_t size) {
	return refuse() ? NULL : real_aligned_alloc(align, size);
}

int posix_memalign(void **block, size_t align, size_t size) {
	return refuse() ? ENOMEM : real_posix_memalign(block, align, size);
}

void free(void *block) {
	static void (*real_free)(void *);
	if (is_early(block))
		return;
	if (!real_free)
		real_free = dlsym(RTLD_NEXT, "free");
	real_free(block);
}

__attribute__((destructor)) static void tell(void) {
	const char *where = getenv("REFUSE_COUNT");
	char line[32];
	if (where) {
		int length = snprintf(line, sizeof line, "%ld\n", atomic_load(&asked));
		if (length > 0 && write(atoi(where), line, (size_t)length) < 0)
			return;
	}
}

/* The program ends by this call, which runs no destructor. */
void _exit(int status) {
	tell();
	syscall(SYS_exit_group, status);
	__builtin_unreachable();
}
