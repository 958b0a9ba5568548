/* The start of a program with no system under it, and its way to say something and to end: semihosting, which an emulator or a debugger
   answers. For a Cortex-M and for a RISC-V of 32 bits. */
#include <stdint.h>

int main(void);
void reset(void);
void host_write(const char *text);
void host_exit(int status);

extern uint32_t data_begin[], data_end[], bss_begin[], bss_end[], stack_top[];
extern const uint32_t data_kept[];

#if defined __arm__
/* the first words of memory: the stack's end, where to begin, and what to do about a fault */
static void fault(void) { host_exit(2); }
__attribute__((section(".vectors"), used)) static const void *const vectors[16] = {
    stack_top, (const void *)reset, (const void *)fault, (const void *)fault, (const void *)fault, (const void *)fault, (const void *)fault,
};

static void host(uintptr_t operation, uintptr_t argument) {
    register uintptr_t r0 __asm__("r0") = operation;
    register uintptr_t r1 __asm__("r1") = argument;
    __asm__ volatile("bkpt 0xab" : "+r"(r0) : "r"(r1) : "memory");
}
#elif defined __riscv
/* the first instructions of memory: the stack's end, and go on */
__asm__(".section .vectors, \"ax\"\n.global first\nfirst:\n\tla sp, stack_top\n\tj reset\n\t.text\n");

static void host(uintptr_t operation, uintptr_t argument) {
    register uintptr_t a0 __asm__("a0") = operation;
    register uintptr_t a1 __asm__("a1") = argument;
    __asm__ volatile(".option push\n.option norvc\n.balign 16\nslli x0, x0, 0x1f\nebreak\nsrai x0, x0, 7\n.option pop"
                     : "+r"(a0)
                     : "r"(a1)
                     : "memory");
}
#endif

void host_write(const char *text) { host(0x04, (uintptr_t)text); }

void host_exit(int status) {
    for (;;) host(0x18, status == 0 ? 0x20026 : 0x20023);
}

void reset(void) {
    const uint32_t *from = data_kept;
    uint32_t *to;
    for (to = data_begin; to < data_end; to++) *to = *from++;
    for (to = bss_begin; to < bss_end; to++) *to = 0;
    host_exit(main());
}
