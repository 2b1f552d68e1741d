/*
 * Tries runtime.c's tables of errors and flags over foreign.c. The program speaks by Linux's
 * numbers, which are those of the system that this is compiled on.
 */
#define main main_of_runtime
#include "foreign.c"
#undef main

static int wrong;

u32
rattle_main(void)
{
	return 0;
}

static void
expect(const char *what, long which, long found, long wanted)
{
	if (found != wanted) {
		printf("%s %ld: %ld, and not %ld\n", what, which, found, wanted);
		wrong++;
	}
}

static void
try_errors(void)
{
	size_t i;

	for (i = 0; i < LENGTH(errors_here); i++) {
		errno_there = errors_there[i];
		expect("the error", errors_here[i], sys_rattle_errno(), errors_here[i]);
		errno_there = 0;
		sys_rattle_set_errno((u32)errors_here[i]);
		expect("the error set", errors_here[i], errno_there, errors_there[i]);
	}
	for (i = 0; i < 200; i++) {
		sys_rattle_set_errno((u32)i);
		expect("what was set is", (long)i, sys_rattle_errno(), (long)i);
	}
	errno_there = 0;
	expect("no error", 0, sys_rattle_errno(), 0);
	/* (one of OpenBSD's that has no name: EFTYPE) */
	errno_there = 79;
	expect("a nameless error", 79, sys_rattle_errno(), 10079);
	sys_rattle_set_errno(10079);
	expect("a nameless error set", 79, errno_there, 79);
	expect("names in runtime.c", 0, COUNT, LENGTH(errors_here));
}

/* All sets of flags, also those with both O_WRONLY and O_RDWR, which are refused. */
static void
try_flags(void)
{
	unsigned set, i, here, there;
	u32 answer;

	is_noted = 1;
	for (set = 0; set < 1u << LENGTH(flags_here); set++) {
		here = there = 0;
		for (i = 0; i < LENGTH(flags_here); i++)
			if (set >> i & 1) {
				here |= (unsigned)flags_here[i];
				there |= (unsigned)flags_there[i];
			}
		noted_flags = noted_mode = -1;
		answer = sys_open((P)"x", here, 0640);
		expect("open by", here, answer, (set & 3) == 3 ? (u32)-1 : 77);
		expect("the flags of", here, noted_flags, (set & 3) == 3 ? -1 : (long)there);
		if ((set & 3) != 3)
			expect("the mode of", here, noted_mode, set & 4 ? 0640 : 0);
	}
	/* (Linux's O_NONBLOCK, and what is no flag anywhere) */
	errno_there = 0;
	expect("open by", 04000, sys_open((P)"x", 04000), (u32)-1);
	expect("the error of", 04000, sys_rattle_errno(), 22);
	expect("open by", 0x40000000, sys_open((P)"x", 0x40000000), (u32)-1);
}

static void
try_texts(void)
{
	char *given_words[] = { "pua", "four", NULL };
	unsigned char room[8] = "........";

	words = given_words;
	words_count = 2;
	expect("a word", 1, (long)sys_rattle_arg(1, room, 8), 4);
	expect("its end", 1, memcmp(room, "four....", 8), 0);
	expect("a word that fits", 1, (long)sys_rattle_arg(1, room, 4), 4);
	expect("a word too long", 1, (long)sys_rattle_arg(1, room, 3), -2);
	expect("no word", 2, (long)sys_rattle_arg(2, room, 8), -1);
	expect("no word", -1, (long)sys_rattle_arg((u64)-1, room, 8), -1);
	expect("no variable", 0, (long)sys_rattle_env((P)"PUA_HAS_NO_SUCH", room, 8), -1);
	expect("no entry", 0, (long)sys_rattle_env_at((u64)-1, room, 8), -1);
}

static void
try_heap(void)
{
	Tried block = sys_rattle_alloc(0, 16);
	Tried refused = sys_rattle_alloc((u64)-1 >> 1, 8);

	expect("no bytes", 0, (long)block.ok, 1);
	block = sys_rattle_realloc((P)(uintptr_t)block.place, 0, 100, 16);
	expect("100 bytes", 0, (long)block.ok, 1);
	expect("their place", 0, (long)(block.place % 16), 0);
	expect("all bytes", 0, (long)refused.ok, 0);
	expect("their place", 1, refused.place != 0 && refused.place % 16 == 0, 1);
	sys_rattle_dealloc((P)(uintptr_t)block.place);
}

int
main(void)
{
	try_errors();
	try_flags();
	try_texts();
	try_heap();
	printf("runtime.c over OpenBSD's numbers: %d wrong\n", wrong);
	return wrong != 0;
}
