/* The start of a Cortex-M board under qemu-system-arm. Files, the command line and the end of the program come by semihosting; newlib's own start code would put
 * the stack where the emulator says, which may be among the programs' buffers. */
extern char __stack, __bss_start__, __bss_end__;
extern void initialise_monitor_handles(void);
extern void __libc_init_array(void);
extern int main(int, char **);
extern void exit(int);

enum { GET_COMMAND_LINE = 0x15, EXIT = 0x18, RUNTIME_ERROR = 0x20023 };

static char line[4096], *word[16];

static int semihosting(int operation, void *argument)
{
    register int r0 __asm__("r0") = operation;
    register void *r1 __asm__("r1") = argument;
    __asm__ volatile("bkpt 0xab" : "+r"(r0) : "r"(r1) : "memory");
    return r0;
}

/* The arguments of the command line, which have no spaces. Returns their number. */
static int split_words(void)
{
    struct { char *at; unsigned room; } block = {line, sizeof line};
    int n = 0;
    if (semihosting(GET_COMMAND_LINE, &block)) return 0;
    for (char *at = line; *at && n < 16;) {
        word[n++] = at;
        while (*at && *at != ' ') at++;
        if (*at) *at++ = 0;
    }
    return n;
}

static void reset(void)
{
#ifdef TRAP_UNALIGNED /* a word at an address that is no multiple of four is a fault (CCR.UNALIGN_TRP) */
    *(volatile unsigned *)0xE000ED14u |= 8;
#endif
    *(volatile unsigned *)0xE000ED88u |= 0xf << 20; /* the floating point unit is turned on, for the C library */
    __asm__ volatile("dsb\nisb");
    for (char *at = &__bss_start__; at < &__bss_end__; at++) *(volatile char *)at = 0;
    initialise_monitor_handles();
    __libc_init_array();
    const int words = split_words();
    exit(main(words, word));
}

/* Any fault ends the program with a status that is not 0. */
static void fault(void)
{
    semihosting(EXIT, (void *)RUNTIME_ERROR);
    for (;;) {}
}

__attribute__((section(".vectors"), used)) static void (*const vectors[16])(void) = {(void (*)(void))&__stack, reset, fault, fault, fault, fault, fault};

#ifdef TRAP_UNALIGNED /* newlib's own copy words at any address */
void *memcpy(void *to, const void *from, unsigned n)
{
    volatile char *out = to;
    for (const volatile char *in = from; n; n--) *out++ = *in++;
    return to;
}
void *memset(void *to, int byte, unsigned n)
{
    for (volatile char *out = to; n; n--) *out++ = (char)byte;
    return to;
}
void __aeabi_memcpy(void *to, const void *from, unsigned n) { memcpy(to, from, n); }
void __aeabi_memcpy4(void *to, const void *from, unsigned n) { memcpy(to, from, n); }
void __aeabi_memclr(void *to, unsigned n) { memset(to, 0, n); }
void __aeabi_memclr4(void *to, unsigned n) { memset(to, 0, n); }
void __aeabi_memclr8(void *to, unsigned n) { memset(to, 0, n); }
#endif

void _init(void) {}
void _fini(void) {}
