/*
 * runtime.c over a layer that has OpenBSD's numbers of errors and of open's flags, on Linux: what
 * is called gets Linux's flags, and the number of an error becomes OpenBSD's. A flag that is none
 * of OpenBSD's ends the program. The numbers are written from memory of OpenBSD's headers.
 */
#define _POSIX_C_SOURCE 200809L
#include <errno.h>
#include <fcntl.h>
#include <signal.h>
#include <stdarg.h>
#include <stdint.h>
#include <stdio.h>
#include <stdlib.h>
#include <string.h>
#include <unistd.h>

/* The names that runtime.c has, in two tables of numbers: Linux's here, and below OpenBSD's. */
#define ERRORS \
	EPERM, ENOENT, EINTR, EIO, ENXIO, E2BIG, EBADF, EAGAIN, ENOMEM, EACCES, EFAULT, EBUSY, \
	EEXIST, EXDEV, ENODEV, ENOTDIR, EISDIR, EINVAL, ENFILE, EMFILE, ENOTTY, ETXTBSY, EFBIG, \
	ENOSPC, ESPIPE, EROFS, EMLINK, EPIPE, EDEADLK, ENAMETOOLONG, ENOSYS, ENOTEMPTY, ELOOP, \
	EOVERFLOW, EOPNOTSUPP, ECONNRESET, ETIMEDOUT, ECONNREFUSED, ESTALE, EDQUOT
#define FLAGS O_WRONLY, O_RDWR, O_CREAT, O_EXCL, O_NOCTTY, O_TRUNC, O_APPEND, O_CLOEXEC
#define LENGTH(table) (sizeof table / sizeof table[0])

static const int errors_here[] = { ERRORS };
static const int flags_here[] = { FLAGS };
static const int errors_there[LENGTH(errors_here)];
static const int flags_there[LENGTH(flags_here)];

/* The last error, by its number there. One that has no name above is Linux's, and 1000 more. */
static int errno_there;

/* Whether open is only noted, and what it was called with. */
static int is_noted, noted_flags, noted_mode;

static long
told(long answer)
{
	size_t i;

	if (answer == -1) {
		errno_there = 1000 + errno;
		for (i = 0; i < LENGTH(errors_here); i++)
			if (errors_here[i] == errno)
				errno_there = errors_there[i];
	}
	return answer;
}

static int
open_there(const char *path, int flags, mode_t mode)
{
	int left = flags, here = 0;
	size_t i;

	noted_flags = flags;
	noted_mode = (int)mode;
	if (is_noted)
		return 77;
	for (i = 0; i < LENGTH(flags_here); i++)
		if (flags & flags_there[i]) {
			here |= flags_here[i];
			left &= ~flags_there[i];
		}
	if (left != 0) {
		fprintf(stderr, "open: the flags %#x are none of OpenBSD's\n", (unsigned)left);
		abort();
	}
	return (int)told(open(path, here, mode));
}

static ssize_t
read_there(int file, void *room, size_t n)
{
	return told(read(file, room, n));
}

static ssize_t
write_there(int file, const void *bytes, size_t n)
{
	return told(write(file, bytes, n));
}

/* What has another number there. (Of errors those up to 34 are alike, but for these two.) */
#undef EAGAIN
#undef ECONNREFUSED
#undef ECONNRESET
#undef EDEADLK
#undef EDQUOT
#undef ELOOP
#undef ENAMETOOLONG
#undef ENOSYS
#undef ENOTEMPTY
#undef EOPNOTSUPP
#undef EOVERFLOW
#undef ESTALE
#undef ETIMEDOUT
#undef O_APPEND
#undef O_CLOEXEC
#undef O_CREAT
#undef O_EXCL
#undef O_NOCTTY
#undef O_TRUNC
#define EDEADLK 11
#define EAGAIN 35
#define EOPNOTSUPP 45
#define ECONNRESET 54
#define ETIMEDOUT 60
#define ECONNREFUSED 61
#define ELOOP 62
#define ENAMETOOLONG 63
#define ENOTEMPTY 66
#define EDQUOT 69
#define ESTALE 70
#define ENOSYS 78
#define EOVERFLOW 87
#define O_APPEND 0x8
#define O_CREAT 0x200
#define O_TRUNC 0x400
#define O_EXCL 0x800
#define O_NOCTTY 0x8000
#define O_CLOEXEC 0x10000

static const int errors_there[] = { ERRORS };
static const int flags_there[] = { FLAGS };

#undef errno
#define errno errno_there
#define open open_there
#define read read_there
#define write write_there

#include "../runtime.c"
