/* Tries division, multiplication and the memory routines on the board, beside plain ones: on numbers at the edges and at random, on every
   alignment and short count. */
#include "board.h"

void __aeabi_memcpy(void *to, const void *from, word count);
void __aeabi_memcpy4(void *to, const void *from, word count);
void __aeabi_memmove(void *to, const void *from, word count);
void __aeabi_memset(void *to, word count, int value);
void __aeabi_memclr(void *to, word count);

struct divided {
    wide quotient, remainder;
};

static wide joined(word low, word high) { return (wide)high << 32 | low; }

/* The compiler would take the quotient alone and work out the remainder. */
#define DIVISION(name, routine)                                                                                        \
    static struct divided name(wide n, wide d) {                                                                       \
        register word r0 __asm__("r0") = (word)n, r1 __asm__("r1") = n >> 32;                                          \
        register word r2 __asm__("r2") = (word)d, r3 __asm__("r3") = d >> 32;                                          \
        __asm__("bl " routine : "+r"(r0), "+r"(r1), "+r"(r2), "+r"(r3) : : "r12", "lr", "cc");                         \
        return (struct divided){joined(r0, r1), joined(r2, r3)};                                                       \
    }
DIVISION(divided, "__aeabi_uldivmod")
DIVISION(divided_signed, "__aeabi_ldivmod")

static struct divided plainly_divided(wide n, wide d) {
    struct divided to = {0, 0};
    for (int i = 0; i < 64; i++, n <<= 1) {
        int carry = to.remainder >> 63;
        to.remainder = to.remainder << 1 | n >> 63;
        to.quotient <<= 1;
        if (carry || to.remainder >= d) to.remainder -= d, to.quotient |= 1;
    }
    return to;
}

static int are_equal(struct divided a, struct divided b) { return a.quotient == b.quotient && a.remainder == b.remainder; }

static wide with_sign(int below, wide size) { return below ? -size : size; }

/* The remainder has the sign of the dividend. */
static int are_divided(wide n, wide d) {
    int n_below = n >> 63, d_below = d >> 63;
    struct divided sizes = plainly_divided(with_sign(n_below, n), with_sign(d_below, d));
    struct divided due = {with_sign(n_below != d_below, sizes.quotient), with_sign(n_below, sizes.remainder)};
    return are_equal(divided(n, d), plainly_divided(n, d)) && are_equal(divided_signed(n, d), due);
}

static int is_multiplied(wide a, wide b) {
    wide sum = 0, part = a;
    for (wide rest = b; rest; rest >>= 1, part <<= 1)
        if (rest & 1) sum += part;
    return a * b == sum;
}

static int are_right(wide a, wide b) {
    if (is_multiplied(a, b) && (b == 0 || are_divided(a, b))) return 1;
    say("wrong product, quotient or remainder\n");
    tell("of", a);
    tell("by", b);
    return 0;
}

/* One less than a power of two, the power, and one more. */
static int are_edges_right(void) {
    for (wide a = 1; a; a <<= 1)
        for (wide b = 1; b; b <<= 1)
            for (wide i = 0; i < 3; i++)
                for (wide j = 0; j < 3; j++)
                    if (!are_right(a + i - 1, b + j - 1)) return 0;
    return 1;
}

static wide next_random(void) {
    static wide last;
    if (!last) last = 1;
    last ^= last << 13;
    last ^= last >> 7;
    return last ^= last << 17;
}

/* Of any size. */
static wide some_number(void) {
    wide number = next_random();
    for (word times = next_random() & 63; times; times--) number >>= 1;
    return number;
}

static int are_numbers_right(word count) {
    while (count--)
        if (!are_right(some_number(), some_number())) return 0;
    return 1;
}

enum { SIZE = 64, LONGEST = 40 };
static _Alignas(8) byte from[SIZE], to[SIZE], due[SIZE];

static void prepare(void) {
    for (word i = 0; i < SIZE; i++) from[i] = (byte)(i + 1), to[i] = due[i] = (byte)(i + 128);
}

static int is_due(const char *routine) {
    for (word i = 0; i < SIZE; i++)
        if (to[i] != due[i]) {
            say("wrong ");
            say(routine);
            say("\n");
            return 0;
        }
    return 1;
}

static int is_memory_right(word at, word other, word count) {
    prepare();
    for (word i = 0; i < count; i++) due[at + i] = from[other + i];
    __aeabi_memcpy(to + at, from + other, count);
    if (!is_due("memcpy")) return 0;

    prepare();
    for (word i = 0; i < count; i++) due[at + i] = to[other + i];
    __aeabi_memmove(to + at, to + other, count);
    if (!is_due("memmove")) return 0;

    prepare();
    for (word i = 0; i < count; i++) due[at + i] = (byte)other;
    __aeabi_memset(to + at, count, (int)(other | 0x700));
    if (!is_due("memset")) return 0;

    prepare();
    for (word i = 0; i < count; i++) due[at + i] = 0;
    __aeabi_memclr(to + at, count);
    if (!is_due("memclr")) return 0;

    if ((at | other) & 3) return 1;
    prepare();
    for (word i = 0; i < count; i++) due[at + i] = from[other + i];
    __aeabi_memcpy4(to + at, from + other, count);
    return is_due("memcpy4");
}

static int are_copies_right(void) {
    for (word at = 0; at < 16; at++)
        for (word other = 0; other < 16; other++)
            for (word count = 0; count <= LONGEST; count++)
                if (!is_memory_right(at, other, count)) return 0;
    return 1;
}

int work(void) { return !(are_copies_right() && are_edges_right() && are_numbers_right(100000)); }
