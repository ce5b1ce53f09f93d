/* Refuses memory to a program that loads this before the C library (LD_PRELOAD). Requests are
 * counted from 1. The request of number REFUSE is refused, and with REFUSE_ALL each later one, too.
 * At the program's end the file that REFUSE_COUNT names holds how many there were. */
#define _GNU_SOURCE
#include <errno.h>
#include <stdatomic.h>
#include <stddef.h>
#include <stdio.h>
#include <stdlib.h>
#include <sys/syscall.h>
#include <unistd.h>

void *__libc_malloc(size_t size);
void *__libc_calloc(size_t count, size_t size);
void *__libc_realloc(void *old, size_t size);

static atomic_ulong requests, refused;
static int refuses_all;

__attribute__((constructor)) static void begin(void)
{
	const char *number = getenv("REFUSE");

	requests = 0;
	refuses_all = getenv("REFUSE_ALL") != NULL;
	refused = number ? strtoul(number, NULL, 10) : 0;
}

static int is_refused(void)
{
	unsigned long request = ++requests;

	if (refused == 0 || request < refused || (request > refused && !refuses_all))
		return 0;
	errno = ENOMEM;
	return 1;
}

void *malloc(size_t size)
{
	return is_refused() ? NULL : __libc_malloc(size);
}

void *calloc(size_t count, size_t size)
{
	return is_refused() ? NULL : __libc_calloc(count, size);
}

void *realloc(void *old, size_t size)
{
	return is_refused() ? NULL : __libc_realloc(old, size);
}

__attribute__((destructor)) static void end(void)
{
	const char *path = getenv("REFUSE_COUNT");
	unsigned long count = requests;
	FILE *file;

	refused = 0;
	file = path ? fopen(path, "w") : NULL;
	if (file) {
		fprintf(file, "%lu\n", count);
		fclose(file);
	}
}

/* A program that ends so runs no destructors. */
void _exit(int status)
{
	end();
	syscall(SYS_exit_group, status);
	__builtin_unreachable();
}
