/* The start of a program on the board, and its ways to the outside: output by semihosting, the timer, and the painted stack. */
#include "board.h"

extern word bss_start[], bss_end[], stack_top[];

/* Semihosting: the emulator does what is asked for. */
enum { WRITE = 4, EXIT = 0x18, SUCCESS = 0x20026, FAILURE = 0x20024 };

static void ask(word what, const void *with) {
    register word r0 __asm__("r0") = what;
    register const void *r1 __asm__("r1") = with;
    __asm__ volatile("bkpt 0xab" : "+r"(r0) : "r"(r1) : "memory");
}

void say(const char *text) { ask(WRITE, text); }

static void end(int failed) {
    ask(EXIT, (const void *)(failed ? FAILURE : SUCCESS));
    for (;;) {}
}

void tell(const char *name, wide number) {
    char digits[19] = {' ', [17] = '\n'};
    for (int i = 16; i > 0; i--, number >>= 4) digits[i] = "0123456789abcdef"[number & 15];
    say(name);
    say(digits);
}

/* It counts down in 24 bits, which last for a thousand million instructions. */
static volatile word *const timer = (volatile word *)0xe000e010;

static void start_timer(void) {
    timer[1] = 0xffffff;
    timer[2] = 0;
    timer[0] = 5;
}

word timer_now(void) { return timer[2]; }

word ticks_since(word then) { return (then - timer[2]) & 0xffffff; }

void spin(word instructions) {
    word times = instructions / 2;
    __asm__ volatile(".syntax unified\n1: subs %0, #1\n bne 1b" : "+l"(times) : : "cc");
}

static const word paint = 0xa5a5a5a5;

static void paint_stack(void) {
    word *lowest;
    __asm__ volatile("mov %0, sp" : "=r"(lowest));
    for (word *at = bss_end; at < lowest; at++) *at = paint;
}

word stack_used(void) {
    const word *at = bss_end;
    while (at < stack_top && *at == paint) at++;
    return (word)(stack_top - at) * sizeof *at;
}

void fault(void) {
    say("fault\n");
    end(1);
}

void reset(void) {
    for (word *at = bss_start; at < bss_end; at++) *at = 0;
    paint_stack();
    start_timer();
    end(work());
}

/* The processor's table: the stack, the start, and what a fault calls. */
__attribute__((section(".vectors"), used)) const void *const vectors[16] = {stack_top, reset, fault, fault, [11] = fault, [14] = fault};
