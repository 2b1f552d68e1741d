#if __SIZEOF_POINTER__ != 8 || __SIZEOF_LONG__ != 8
#error "pua.c is for processors with addresses and longs of 64 bits: amd64, arm64, riscv64."
#endif
#if __BYTE_ORDER__ != __ORDER_LITTLE_ENDIAN__
#error "pua.c is for processors that keep the low byte of a number first: amd64, arm64, riscv64."
#endif
#if !defined __GNUC__ || !defined __SIZEOF_INT128__
#error "pua.c is for gcc and clang: it has integers of 128 bits, and vectors."
#endif
#if defined __FAST_MATH__
#error "pua.c has to be compiled without -ffast-math: its floats have to be as IEEE 754 says."
#endif

/* gcc knows this as the option -ffp-contract=off alone. */
#pragma STDC FP_CONTRACT OFF

#include <stddef.h>
#include <stdint.h>
#include <string.h>

typedef _Bool b1;
typedef uint8_t u8;
typedef uint16_t u16;
typedef uint32_t u32;
typedef uint64_t u64;
typedef unsigned __int128 u128;
typedef int8_t s8;
typedef int16_t s16;
typedef int32_t s32;
typedef int64_t s64;
typedef __int128 s128;
typedef unsigned char *P;

/* What holds of the C compiler: else the array would have no length. */
#define HOLDS(name, is_so) typedef char name[(is_so) ? 1 : -1]
HOLDS(int_has_32_bits, sizeof(int) == 4);
HOLDS(sizes_have_64_bits, sizeof(size_t) == 8 && sizeof(u64) == 8 && sizeof(P) == 8);
HOLDS(casts_keep_the_bits, (s8)255 == -1 && (s64)~(u64)0 == -1);
HOLDS(shifts_keep_the_sign, (s64)-8 >> 1 == -4);
HOLDS(doubles_have_64_bits, sizeof(double) == 8);
HOLDS(truths_have_8_bits, sizeof(b1) == 1);

#define ALIGNED(n) __attribute__((aligned(n)))
#define NOINLINE __attribute__((noinline))
#define INLINE inline __attribute__((always_inline))
#define COLD __attribute__((cold))
#define UNREACHABLE __builtin_unreachable()
#define TRAP __builtin_trap()

/* Memory is read and written at any place, whatever else is kept there. */
#define MEMORY(T) \
	static INLINE T ld_##T(const void *place) { T x; memcpy(&x, place, sizeof x); return x; } \
	static INLINE void st_##T(void *place, T x) { memcpy(place, &x, sizeof x); }
MEMORY(u8)
MEMORY(u16)
MEMORY(u32)
MEMORY(u64)
MEMORY(u128)
MEMORY(P)
MEMORY(double)

/* The float that has these bits. */
static INLINE double f64_of(u64 bits) { double x; memcpy(&x, &bits, 8); return x; }

/* How many ones there are, how many zeros below the lowest one, and how many above the highest. */
#define COUNTS(T, W) \
	static INLINE T ones_##T(T x) { return (T)__builtin_popcountll(x); } \
	static INLINE T zeros_below_##T(T x) { return (T)(x ? __builtin_ctzll(x) : W); } \
	static INLINE T zeros_above_##T(T x) { return (T)(x ? __builtin_clzll(x) - (64 - W) : W); }
COUNTS(u8, 8)
COUNTS(u16, 16)
COUNTS(u32, 32)
COUNTS(u64, 64)

/* Vectors of bytes. One of truths has lanes of 255 and of 0, as C's comparisons give them. */
#define VECTOR(N) \
	typedef u8 V##N __attribute__((vector_size(N))); \
	typedef s8 W##N __attribute__((vector_size(N))); \
	static INLINE V##N splat_V##N(u8 x) { V##N zero = {0}; return zero + x; } \
	static INLINE V##N choose_V##N(V##N which, V##N yes, V##N no) \
	{ \
		return (which & yes) | (~which & no); \
	}

/* The truths of 16 lanes as bits, that of lane 0 as the lowest. */
#define BITS_OF_16 \
	static INLINE u16 bits_V16(V16 lanes) \
	{ \
		u64 low, high; \
		memcpy(&low, &lanes, 8); \
		memcpy(&high, (P)&lanes + 8, 8); \
		low = (low & 0x8080808080808080ull) >> 7; \
		high = (high & 0x8080808080808080ull) >> 7; \
		low = low * 0x0102040810204080ull >> 56; \
		high = high * 0x0102040810204080ull >> 56; \
		return (u16)(low | high << 8); \
	}
#if defined __SSE2__ && !defined PLAIN_BITS
typedef char C16 __attribute__((vector_size(16)));
#undef BITS_OF_16
#define BITS_OF_16 \
	static INLINE u16 bits_V16(V16 lanes) { return (u16)__builtin_ia32_pmovmskb128((C16)lanes); }
#endif
