/*
 * What pua.c calls: the heap, the words of the command line, errors, and the files and outputs of
 * a POSIX system. Nothing of it is proved. It is to be read: each function stands for one of which
 * the proofs take for granted what the comment above it says.
 *
 * The program speaks of errors and of open's flags by Linux's numbers. Here they become the
 * system's own, by their names.
 */
#define _POSIX_C_SOURCE 200809L
#include <errno.h>
#include <fcntl.h>
#include <signal.h>
#include <stdarg.h>
#include <stdint.h>
#include <stdio.h>
#include <stdlib.h>
#include <string.h>
#include <unistd.h>

typedef unsigned char *P;
typedef uint64_t u64;
typedef uint32_t u32;

/* Whether there is memory, and then where. */
typedef struct { u64 ok; u64 place; } Tried;

/* In pua.c: the whole program. It answers how it ends. */
u32 rattle_main(void);

static int words_count;
static char **words;

/* ---- the heap */

static Tried
tried(void *block)
{
	static unsigned char nowhere[16];
	Tried answer;

	answer.ok = block != NULL;
	answer.place = (u64)(uintptr_t)(block != NULL ? block : nowhere);
	return answer;
}

/* New memory of n bytes, whose address is a multiple of align: 16 at most, as malloc's are. */
Tried
sys_rattle_alloc(u64 n, u64 align)
{
	return tried(malloc(n != 0 ? n : align));
}

/* The block with n bytes, the first of them as before. It may move, unless there is no memory. */
Tried
sys_rattle_realloc(P block, u64 kept, u64 n, u64 align)
{
	(void)kept;
	return tried(realloc(block, n != 0 ? n : align));
}

/* Gives a block back. */
void
sys_rattle_dealloc(P block)
{
	free(block);
}

/* ---- texts from outside */

/*
 * The length of a text, which is put into the room; as -1: there is no such text; as -2: it is
 * longer than the room, which is full then.
 */
static u64
given(const char *text, P room, u64 n)
{
	size_t length;

	if (text == NULL)
		return (u64)-1;
	length = strlen(text);
	memcpy(room, text, length < n ? length : n);
	return length <= n ? length : (u64)-2;
}

/* A word of the command line, the first of which is the program's own. */
u64
sys_rattle_arg(u64 i, P room, u64 n)
{
	return given(i < (u64)words_count ? words[i] : NULL, room, n);
}

/* The value of a variable of the environment, by its name, which a zero ends. */
u64
sys_rattle_env(P name, P room, u64 n)
{
	return given(getenv((const char *)name), room, n);
}

/* A name of the environment with its value. */
u64
sys_rattle_env_at(u64 i, P room, u64 n)
{
	extern char **environ;
	u64 k;

	for (k = 0; environ != NULL && environ[k] != NULL; k++)
		if (k == i)
			return given(environ[k], room, n);
	return (u64)-1;
}

/* ---- errors */

static const struct { u32 linux_number; int here; } numbers[] = {
	{ 1, EPERM },
	{ 2, ENOENT },
	{ 4, EINTR },
	{ 5, EIO },
	{ 6, ENXIO },
	{ 7, E2BIG },
	{ 9, EBADF },
	{ 11, EAGAIN },
	{ 12, ENOMEM },
	{ 13, EACCES },
	{ 14, EFAULT },
	{ 16, EBUSY },
	{ 17, EEXIST },
	{ 18, EXDEV },
	{ 19, ENODEV },
	{ 20, ENOTDIR },
	{ 21, EISDIR },
	{ 22, EINVAL },
	{ 23, ENFILE },
	{ 24, EMFILE },
	{ 25, ENOTTY },
	{ 26, ETXTBSY },
	{ 27, EFBIG },
	{ 28, ENOSPC },
	{ 29, ESPIPE },
	{ 30, EROFS },
	{ 31, EMLINK },
	{ 32, EPIPE },
	{ 35, EDEADLK },
	{ 36, ENAMETOOLONG },
	{ 38, ENOSYS },
	{ 39, ENOTEMPTY },
	{ 40, ELOOP },
	{ 75, EOVERFLOW },
	{ 95, EOPNOTSUPP },
	{ 104, ECONNRESET },
	{ 110, ETIMEDOUT },
	{ 111, ECONNREFUSED },
#ifdef ESTALE
	{ 116, ESTALE },
#endif
#ifdef EDQUOT
	{ 122, EDQUOT },
#endif
};

#define COUNT (sizeof numbers / sizeof numbers[0])

/* What is added to an error of this system that has no name above. Linux has no such numbers. */
#define NAMELESS 10000

/* The number of the last error, or 0. */
u32
sys_rattle_errno(void)
{
	size_t i;

	if (errno <= 0)
		return (u32)-errno;
	for (i = 0; i < COUNT; i++)
		if (numbers[i].here == errno)
			return numbers[i].linux_number;
	return (u32)(NAMELESS + errno);
}

/*
 * Makes a number that of the last error. One of Linux's that has no name above is kept below 0,
 * where no system has any.
 */
void
sys_rattle_set_errno(u32 number)
{
	size_t i;

	errno = number < NAMELESS ? -(int)number : (int)(number - NAMELESS);
	for (i = 0; i < COUNT; i++)
		if (numbers[i].linux_number == number)
			errno = numbers[i].here;
}

/* ---- files and outputs */

static const struct { u32 linux_flag; int here; } flags_of_open[] = {
	{ 01, O_WRONLY },
	{ 02, O_RDWR },
	{ 0100, O_CREAT },
	{ 0200, O_EXCL },
	{ 0400, O_NOCTTY },
	{ 01000, O_TRUNC },
	{ 02000, O_APPEND },
	{ 02000000, O_CLOEXEC },
};

#define CREATES 0100

/*
 * POSIX's open. A mode is passed where the file may be made. Flags that have no name above, and
 * O_WRONLY with O_RDWR, are an error.
 */
u32
sys_open(P path, u32 flags, ...)
{
	int here = O_RDONLY;
	u32 left = flags, mode = 0;
	size_t i;
	va_list rest;

	for (i = 0; i < sizeof flags_of_open / sizeof flags_of_open[0]; i++)
		if (flags & flags_of_open[i].linux_flag) {
			here |= flags_of_open[i].here;
			left &= ~flags_of_open[i].linux_flag;
		}
	if (left != 0 || (flags & 3) == 3) {
		errno = EINVAL;
		return (u32)-1;
	}
	if (flags & CREATES) {
		va_start(rest, flags);
		mode = va_arg(rest, u32);
		va_end(rest);
	}
	return (u32)open((const char *)path, here, (mode_t)mode);
}

/* POSIX's close, read and write. */
u32
sys_close(u32 file)
{
	return (u32)close((int)file);
}

u64
sys_read(u32 file, P room, u64 n)
{
	return (u64)read((int)file, room, n);
}

u64
sys_write(u32 file, P bytes, u64 n)
{
	return (u64)write((int)file, bytes, n);
}

/* ---- the beginning */

#ifdef __OpenBSD__
/* unistd.h has it where POSIX alone is not asked for. */
int pledge(const char *, const char *);
#endif

int
main(int argc, char **argv)
{
#ifdef __OpenBSD__
	/* It reads the files that it is told to, and writes to its outputs; nothing else. */
	if (pledge("stdio rpath", NULL) == -1) {
		perror("pledge");
		return 126;
	}
#endif
	/* A write to a pipe that nobody reads is an error like others. */
	signal(SIGPIPE, SIG_IGN);
	words_count = argc;
	words = argv;
	return (int)rattle_main();
}
