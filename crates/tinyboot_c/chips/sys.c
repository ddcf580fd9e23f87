/* The entry, Linux's calls, the other stack, and what the library and the compiler want of a C library, for each target. */
#include "sys.h"

long sys_three(long a, long b, long c, long number);

#if defined(__riscv)
#define READ 63
#define WRITE 64
#define EXIT 93
/* the number goes into a7, which rv32e has no name for (the word is `addi x17, x13, 0`), and for rv32e into t0 */
__asm__(".text\n.globl _start\n_start:\n call begin\n"
        ".globl sys_three\nsys_three:\n mv t0, a3\n .word 0x00068893\n ecall\n ret\n"
        ".globl on_stack\non_stack:\n addi sp, sp, -16\n sw ra, 12(sp)\n sw s0, 8(sp)\n mv s0, sp\n mv sp, a1\n jalr a0\n mv sp, s0\n"
        " lw s0, 8(sp)\n lw ra, 12(sp)\n addi sp, sp, 16\n ret\n");
#elif defined(__arm__)
#define READ 3
#define WRITE 4
#define EXIT 1
__asm__(".text\n.thumb\n.syntax unified\n.globl _start\n.type _start,%function\n.thumb_func\n_start:\n bl begin\n"
        ".globl sys_three\n.type sys_three,%function\n.thumb_func\nsys_three:\n push {r7, lr}\n mov r7, r3\n svc #0\n pop {r7, pc}\n"
        ".globl on_stack\n.type on_stack,%function\n.thumb_func\non_stack:\n push {r4, lr}\n mov r4, sp\n mov sp, r1\n blx r0\n mov sp, r4\n pop {r4, pc}\n");
#elif defined(__aarch64__)
#define READ 63
#define WRITE 64
#define EXIT 93
__asm__(".text\n.globl _start\n_start:\n bl begin\n"
        ".globl sys_three\nsys_three:\n mov x8, x3\n svc #0\n ret\n"
        ".globl on_stack\non_stack:\n stp x19, x30, [sp, #-16]!\n mov x19, sp\n mov sp, x1\n blr x0\n mov sp, x19\n ldp x19, x30, [sp], #16\n ret\n");
#elif defined(__x86_64__)
#define READ 0
#define WRITE 1
#define EXIT 60
__asm__(".text\n.globl _start\n_start:\n call begin\n"
        ".globl sys_three\nsys_three:\n mov %rcx, %rax\n syscall\n ret\n"
        ".globl on_stack\non_stack:\n push %rbx\n mov %rsp, %rbx\n mov %rsi, %rsp\n call *%rdi\n mov %rbx, %rsp\n pop %rbx\n ret\n");
#endif

long sys_read(int from, void *to, size_t most) { return sys_three(from, (long)to, (long)most, READ); }

void sys_write(int to, const void *from, size_t n)
{
    const uint8_t *bytes = from;
    while (n > 0) {
        long done = sys_three(to, (long)bytes, (long)n, WRITE);
        if (done <= 0) sys_exit(3);
        bytes += done;
        n -= (size_t)done;
    }
}

void sys_exit(int status)
{
    for (;;) sys_three(status, 0, 0, EXIT);
}

void *memcpy(void *to, const void *from, size_t n)
{
    uint8_t *a = to;
    const uint8_t *b = from;
    while (n--) *a++ = *b++;
    return to;
}

void *memmove(void *to, const void *from, size_t n)
{
    uint8_t *a = to;
    const uint8_t *b = from;
    if (a < b) return memcpy(to, from, n);
    while (n--) a[n] = b[n];
    return to;
}

void *memset(void *to, int byte, size_t n)
{
    uint8_t *a = to;
    while (n--) *a++ = (uint8_t)byte;
    return to;
}

#if __SIZEOF_POINTER__ == 4
/* Division where there is no instruction for it, bit by bit and with shifts by one; a number of 32 bits stands in the upper half. */
static inline uint64_t divided(uint64_t n, uint64_t by, int bits, uint64_t *rest)
{
    uint64_t quotient = 0, left = 0;
    while (bits-- > 0) {
        left = left << 1 | n >> 63;
        n <<= 1;
        quotient <<= 1;
        if (left >= by) {
            left -= by;
            quotient |= 1;
        }
    }
    *rest = left;
    return quotient;
}

uint64_t left64(uint64_t n, uint64_t by, uint64_t *quotient)
{
    uint64_t rest;
    *quotient = divided(n, by, 64, &rest);
    return rest;
}

uint32_t left32(uint32_t n, uint32_t by, uint32_t *quotient)
{
    uint64_t rest;
    *quotient = (uint32_t)divided((uint64_t)n << 32, by, 32, &rest);
    return (uint32_t)rest;
}

uint64_t __umoddi3(uint64_t n, uint64_t by)
{
    uint64_t quotient;
    return left64(n, by, &quotient);
}

uint64_t __udivdi3(uint64_t n, uint64_t by)
{
    uint64_t quotient;
    left64(n, by, &quotient);
    return quotient;
}

uint32_t __umodsi3(uint32_t n, uint32_t by)
{
    uint32_t quotient;
    return left32(n, by, &quotient);
}

uint32_t __udivsi3(uint32_t n, uint32_t by)
{
    uint32_t quotient;
    left32(n, by, &quotient);
    return quotient;
}
#endif

#ifdef __arm__
void __aeabi_memcpy(void *to, const void *from, size_t n) { memcpy(to, from, n); }
void __aeabi_memcpy4(void *to, const void *from, size_t n) { memcpy(to, from, n); }
void __aeabi_memcpy8(void *to, const void *from, size_t n) { memcpy(to, from, n); }
void __aeabi_memmove(void *to, const void *from, size_t n) { memmove(to, from, n); }
void __aeabi_memmove4(void *to, const void *from, size_t n) { memmove(to, from, n); }
void __aeabi_memmove8(void *to, const void *from, size_t n) { memmove(to, from, n); }
void __aeabi_memset(void *to, size_t n, int byte) { memset(to, byte, n); }
void __aeabi_memset4(void *to, size_t n, int byte) { memset(to, byte, n); }
void __aeabi_memset8(void *to, size_t n, int byte) { memset(to, byte, n); }
void __aeabi_memclr(void *to, size_t n) { memset(to, 0, n); }
void __aeabi_memclr4(void *to, size_t n) { memset(to, 0, n); }
void __aeabi_memclr8(void *to, size_t n) { memset(to, 0, n); }
uint32_t __aeabi_uidiv(uint32_t n, uint32_t by) { return __udivsi3(n, by); }
/* the quotient in r0 (r0 and r1), what is left in r1 (r2 and r3) */
__asm__(".text\n.thumb\n.syntax unified\n"
        ".globl __aeabi_uldivmod\n.type __aeabi_uldivmod,%function\n.thumb_func\n__aeabi_uldivmod:\n push {r4, lr}\n sub sp, #16\n add r4, sp, #8\n"
        " str r4, [sp]\n bl left64\n mov r2, r0\n mov r3, r1\n ldr r0, [sp, #8]\n ldr r1, [sp, #12]\n add sp, #16\n pop {r4, pc}\n"
        ".globl __aeabi_uidivmod\n.type __aeabi_uidivmod,%function\n.thumb_func\n__aeabi_uidivmod:\n push {r4, lr}\n sub sp, #8\n mov r2, sp\n"
        " bl left32\n mov r1, r0\n ldr r0, [sp]\n add sp, #8\n pop {r4, pc}\n");
#endif
