/* A call on another stack, on each processor that ./archive compiles for, so that the stack of a call can be measured. */
#ifndef ONSTACK_H
#define ONSTACK_H

#include <stdint.h>

/* Makes the call with the stack's top at this place, a multiple of 16. In WebAssembly a program's stack is not its own to
 * move: there the call is made on the stack that there is. */
static void call_on(uint8_t *top, void (*call)(void))
{
#if defined __x86_64__
    __asm__ volatile("movq %%rsp, %%rbx\n\tmovq %0, %%rsp\n\tcall *%1\n\tmovq %%rbx, %%rsp"
                     :
                     : "r"(top), "r"(call)
                     : "rax", "rbx", "rcx", "rdx", "rsi", "rdi", "r8", "r9", "r10", "r11", "xmm0", "xmm1", "xmm2", "xmm3", "xmm4", "xmm5",
                       "xmm6", "xmm7", "xmm8", "xmm9", "xmm10", "xmm11", "xmm12", "xmm13", "xmm14", "xmm15", "memory", "cc");
#elif defined __i386__
    __asm__ volatile("movl %%esp, %%esi\n\tmovl %0, %%esp\n\tcall *%1\n\tmovl %%esi, %%esp"
                     :
                     : "r"(top), "r"(call)
                     : "eax", "esi", "ecx", "edx", "memory", "cc");
#elif defined __aarch64__
    __asm__ volatile("mov x19, sp\n\tmov sp, %0\n\tblr %1\n\tmov sp, x19"
                     :
                     : "r"(top), "r"(call)
                     : "x0", "x1", "x2", "x3", "x4", "x5", "x6", "x7", "x8", "x9", "x10", "x11", "x12", "x13", "x14", "x15", "x16", "x17",
                       "x18", "x19", "x30", "v0", "v1", "v2", "v3", "v4", "v5", "v6", "v7", "v16", "v17", "v18", "v19", "v20", "v21", "v22",
                       "v23", "v24", "v25", "v26", "v27", "v28", "v29", "v30", "v31", "memory", "cc");
#elif defined __arm__
    __asm__ volatile("mov r4, sp\n\tmov sp, %0\n\tblx %1\n\tmov sp, r4"
                     :
                     : "r"(top), "r"(call)
                     : "r0", "r1", "r2", "r3", "r4", "r12", "lr", "memory", "cc");
#elif defined __riscv
    __asm__ volatile("mv s1, sp\n\tmv sp, %0\n\tjalr %1\n\tmv sp, s1"
                     :
                     : "r"(top), "r"(call)
                     : "ra", "t0", "t1", "t2", "t3", "t4", "t5", "t6", "a0", "a1", "a2", "a3", "a4", "a5", "a6", "a7", "s1", "memory");
#elif defined __wasm__
    (void)top;
    call();
#else
#error "a call on another stack is not written for this processor"
#endif
}

#endif
