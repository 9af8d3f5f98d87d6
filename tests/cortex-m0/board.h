/* What the programs for the board share. The kit's clang comes without C's headers. */
typedef unsigned char byte;
typedef unsigned int word;
typedef unsigned long long wide;

/* The program, called once; 0 is success. */
int work(void);

void say(const char *text);
/* A line with a name and a number in hexadecimal digits. */
void tell(const char *name, wide number);

/* The processor's timer, and its ticks since it stood at `then`. */
word timer_now(void);
word ticks_since(word then);
/* A loop of so many instructions, to hold the ticks to. */
void spin(word instructions);

/* The bytes of the stack that were ever used. */
word stack_used(void);
