/* What stands around the main of a proved program on a processor for which Rattle's kit has nothing: the start of a process, as glibc has it in crt1.o,
 * and the C code of the kit's library `os`, which the kit has compiled for x86-64 alone. Nothing is proved of this file; the gate holds the programs that
 * it is linked with to all that the kit's own are held to. tools/programs compiles it, without a header. */

int main(int count, char **words, char **settings);
int __libc_start_main(int (*)(int, char **, char **), int, char **, void (*)(void), void (*)(void), void (*)(void), void *);
int *__errno_location(void);

__PTRDIFF_TYPE__ rattle_arg(__SIZE_TYPE__ place, unsigned char *into, __SIZE_TYPE__ room);
int rattle_errno(void);
void rattle_set_errno(int error);

static int word_count;
static char **words;

/* The stack begins with the count of the words, then has each; the register has what glibc is to call at the end. */
#if defined(__aarch64__)
__asm__(".text\n"
        ".globl _start\n"
        ".type _start, %function\n"
        "_start:\n"
        "    mov x29, #0\n"
        "    mov x30, #0\n"
        "    mov x1, x0\n"
        "    mov x0, sp\n"
        "    b started\n");
#else
#error "the start of a process is not told for this processor"
#endif

__attribute__((used, noreturn)) static void started(long *stack, void (*at_end)(void)) {
    word_count = (int)stack[0];
    words = (char **)(stack + 1);
    __libc_start_main(main, word_count, words, 0, 0, at_end, stack);
    __builtin_trap();
}

/* The word's length, -1 where there is no such word, -2 where it does not fit. */
__PTRDIFF_TYPE__ rattle_arg(__SIZE_TYPE__ place, unsigned char *into, __SIZE_TYPE__ room) {
    __SIZE_TYPE__ at = 0;
    if (place >= (__SIZE_TYPE__)word_count || !words[place]) return -1;
    for (; words[place][at]; at++) {
        if (at == room) return -2;
        into[at] = (unsigned char)words[place][at];
    }
    return (__PTRDIFF_TYPE__)at;
}

int rattle_errno(void) {
    return *__errno_location();
}

void rattle_set_errno(int error) {
    *__errno_location() = error;
}
