/* The selftest as one file that needs nothing on the machine but Linux: no C library, no file beside it. The list is in it. For x86-64,
 * aarch64 and armv7, by the kit's compiler, which has no C headers and for two of them no C library: selftest/build. */
#define SELFTEST_LINUX
#include "selftest.c"

/* ---- what the C library has elsewhere */

void *memcpy(void *to, const void *from, size_t count) {
    for (size_t i = 0; i < count; i++) ((volatile uint8_t *)to)[i] = ((const uint8_t *)from)[i];
    return to;
}

void *memmove(void *to, const void *from, size_t count) {
    if ((uintptr_t)to - (uintptr_t)from >= count) return memcpy(to, from, count);
    for (size_t i = count; i > 0; i--) ((volatile uint8_t *)to)[i - 1] = ((const uint8_t *)from)[i - 1];
    return to;
}

void *memset(void *to, int byte, size_t count) {
    for (size_t i = 0; i < count; i++) ((volatile uint8_t *)to)[i] = (uint8_t)byte;
    return to;
}

/* system NUMBER with three words: the kernel's answer. `start` has the words that the program was started with at the top of the stack. */
#if defined __x86_64__
enum { READ = 0, WRITE = 1, EXIT = 231 };
static long system(long number, long first, long second, long third) {
    long answer;
    __asm__ volatile("syscall" : "=a"(answer) : "a"(number), "D"(first), "S"(second), "d"(third) : "rcx", "r11", "memory");
    return answer;
}
__asm__(".globl _start\n_start: xor %ebp, %ebp\n mov %rsp, %rdi\n and $-16, %rsp\n call start\n hlt\n");
#elif defined __aarch64__
enum { READ = 63, WRITE = 64, EXIT = 94 };
static long system(long number, long first, long second, long third) {
    register long x8 __asm__("x8") = number, x0 __asm__("x0") = first, x1 __asm__("x1") = second, x2 __asm__("x2") = third;
    __asm__ volatile("svc 0" : "+r"(x0) : "r"(x8), "r"(x1), "r"(x2) : "memory");
    return x0;
}
__asm__(".globl _start\n_start: mov x29, 0\n mov x30, 0\n mov x0, sp\n bl start\n brk 1\n");
#elif defined __arm__
enum { READ = 3, WRITE = 4, EXIT = 248 };
static long system(long number, long first, long second, long third) {
    register long r7 __asm__("r7") = number, r0 __asm__("r0") = first, r1 __asm__("r1") = second, r2 __asm__("r2") = third;
    __asm__ volatile("svc 0" : "+r"(r0) : "r"(r7), "r"(r1), "r"(r2) : "memory");
    return r0;
}
__asm__(".globl _start\n_start: mov fp, #0\n mov lr, #0\n mov r0, sp\n bic sp, sp, #7\n bl start\n udf #0\n");
#endif

static uint8_t ahead[LONGEST], behind[LONGEST];
static size_t ahead_at, ahead_end, behind_end;

static size_t input(void *bytes, size_t count) {
    for (size_t i = 0; i < count; i++) {
        if (ahead_at == ahead_end) {
            const long came = system(READ, 0, (long)ahead, LONGEST);
            if (came <= 0) return i;
            ahead_at = 0, ahead_end = (size_t)came;
        }
        ((uint8_t *)bytes)[i] = ahead[ahead_at++];
    }
    return count;
}

static int flush(void) {
    for (size_t at = 0; at < behind_end;) {
        const long went = system(WRITE, 1, (long)(behind + at), (long)(behind_end - at));
        if (went <= 0) return 0;
        at += (size_t)went;
    }
    behind_end = 0;
    return 1;
}

static int output(const void *bytes, size_t count) {
    for (size_t i = 0; i < count; i++) {
        if (behind_end == LONGEST && !flush()) return 0;
        behind[behind_end++] = ((const uint8_t *)bytes)[i];
    }
    return 1;
}

/* the list, from the folder that is compiled in */
__asm__(".section .rodata\n"
        ".globl list_calls, list_answers, list_end\n"
        "list_calls: .incbin \"calls\"\n"
        "list_answers: .incbin \"answers\"\n"
        "list_end: .byte 0\n"
        ".text\n");
extern const uint8_t list_calls[], list_answers[], list_end[];

static int same(const char *left, const char *right) {
    while (*left != 0 && *left == *right) left++, right++;
    return *left == *right;
}

/* `words` has their number, and behind it each. */
__attribute__((used, noreturn)) void start(const long *words) {
    const char *const *const given = (const char *const *)(words + 1);
    int status = 2;
    if (words[0] == 2 && same(given[1], "--answers")) status = answer_calls();
    else if (words[0] == 1)
        status = hold_list(list_calls, (size_t)(list_answers - list_calls), list_answers, (size_t)(list_end - list_answers));
    else say("usage: rinchovek-selftest, or rinchovek-selftest --answers\n");
    if (!flush()) status = 2;
    for (;;) system(EXIT, status, 0, 0);
}
