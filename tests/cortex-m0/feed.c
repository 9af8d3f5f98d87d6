/* Gives the proved functions the input that lies in flash, and tells their checksums and how long they took. tests/benchmark/src/image.rs
   writes the input. */
#include "board.h"

/* Rattle's usize: the module is made for x86-64, so a length has 64 bits here too. */
typedef wide length;

wide proved_calls(const byte *profiles, length, const byte *calls, length, byte *out, length);
wide proved_buffers(const byte *profiles, length, const byte *calls, length, const byte *bytes, length, const byte *marks, length, byte *out,
                    length);
wide proved_lines(const byte *lines, length, wide *values);
wide proved_rewritten(const byte *lines, length, byte *out, length);
wide proved_fields(const byte *numbers, length);

enum { CALLS = 1, LINES = 2, REWRITTEN = 4, ANSWERS = 8, BUFFERS = 16, FIELDS = 32, DIVISIONS = 64 };

/* What is asked for, and the sizes of the seven parts that follow. */
extern const struct input {
    word what, profiles, calls, lines, script, bytes, marks, numbers;
    byte parts[];
} input;

enum { CALL = 8 };
static byte out[2048];

static const byte *calls(void) { return input.parts + input.profiles; }

static const byte *lines(void) { return calls() + input.calls; }

/* The calls with whole buffers among them, the bytes of these, and their marks. */
static const byte *script(void) { return lines() + input.lines; }

static const byte *bytes(void) { return script() + input.script; }

static const byte *marks(void) { return bytes() + input.bytes; }

static const byte *numbers(void) { return marks() + input.marks; }

/* Of the first calls. */
static wide sum_of_calls(word size) { return proved_calls(input.parts, input.profiles, calls(), size, out, sizeof out); }

/* The checksum in which the proved code takes every refusal number, count and answer byte. */
struct sums {
    wide low, high;
};

static struct sums with(struct sums sums, wide number) {
    sums.low += number;
    sums.high += sums.low;
    return sums;
}

static struct sums with_answer(struct sums sums, word count) {
    sums = with(with(sums, 0), count);
    for (word i = 0; i < count; i++) sums = with(sums, out[i]);
    return sums;
}

/* The answer of each call. Its length is not handed out: it is the one that makes the checksum right. */
static int say_answers(void) {
    struct sums sums = {0, 0};
    for (word size = CALL; size <= input.calls; size += CALL) {
        wide sum = sum_of_calls(size);
        word count = 0;
        while (with_answer(sums, count).high != sum)
            if (count++ == sizeof out) return 1;
        sums = with_answer(sums, count);
        for (word i = 0; i < count; i++) say((const char[]){(char)out[i], 0});
    }
    return 0;
}

static void tell_calls(void) {
    word then = timer_now();
    wide sum = sum_of_calls(input.calls);
    tell("ticks", ticks_since(then));
    tell("calls", sum);
}

static void tell_lines(void) {
    wide values = 0;
    word then = timer_now();
    wide sum = proved_lines(lines(), input.lines, &values);
    tell("ticks", ticks_since(then));
    tell("lines", sum);
    tell("values", values);
}

static void tell_rewritten(void) {
    word then = timer_now();
    wide sum = proved_rewritten(lines(), input.lines, out, sizeof out);
    tell("ticks", ticks_since(then));
    tell("rewritten", sum);
}

static void tell_buffers(void) {
    word then = timer_now();
    wide sum = proved_buffers(input.parts, input.profiles, script(), input.script, bytes(), input.bytes, marks(), input.marks, out, sizeof out);
    tell("ticks", ticks_since(then));
    tell("buffers", sum);
}

static void tell_fields(void) {
    word then = timer_now();
    wide sum = proved_fields(numbers(), input.numbers);
    tell("ticks", ticks_since(then));
    tell("fields", sum);
}

/* How often the division routine was called, in the program where count.s counts it. */
word divisions;

/* The divisions of each call: those of the calls up to it, less those of the calls before it. */
static void tell_divisions(void) {
    word before = 0;
    for (word size = CALL; size <= input.calls; size += CALL) {
        divisions = 0;
        sum_of_calls(size);
        tell("divisions", divisions - before);
        before = divisions;
    }
}

int work(void) {
    word then = timer_now();
    spin(2000000);
    tell("spin", ticks_since(then));
    if (input.what & ANSWERS) return say_answers();
    if (input.what & CALLS) tell_calls();
    if (input.what & LINES) tell_lines();
    if (input.what & REWRITTEN) tell_rewritten();
    if (input.what & BUFFERS) tell_buffers();
    if (input.what & FIELDS) tell_fields();
    if (input.what & DIVISIONS) tell_divisions();
    tell("stack", stack_used());
    return 0;
}
