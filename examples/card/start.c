/* The start of a Cortex-M without a system: the vector table, and what the processor does from reset on until main. The linker
 * script says where code and memory lie (microbit.ld). The bytes of standard input and output go by semihosting, through the
 * debugger or the emulator (newlib's librdimon); a card has its pins instead. */
#include <stdint.h>

extern uint32_t data_begins[], data_ends[], data_kept[], zero_begins[], zero_ends[], stack_top[];
int main(void);
void exit(int status);
void initialise_monitor_handles(void);

/* A fault: the processor stands still. */
static void fault(void)
{
    for (;;) {
    }
}

void start(void)
{
    const uint32_t *from = data_kept;
    for (uint32_t *to = data_begins; to < data_ends;)
        *to++ = *from++;
    for (uint32_t *to = zero_begins; to < zero_ends;)
        *to++ = 0;
#ifdef __ARM_FP
    *(volatile uint32_t *)0xE000ED88 |= 0xFu << 20; /* CPACR: the float unit on, for a program compiled for hard float */
    __asm__ volatile("dsb\n\tisb");
#endif
    initialise_monitor_handles();
    exit(main());
}

/* The first word is the stack's top, the second the start; of the others only faults can come, since nothing is interrupted. */
typedef void (*vector)(void);
__attribute__((section(".vectors"), used)) static const vector vectors[16] = {
    (vector)stack_top, start, fault, fault, fault, fault, fault, fault, fault, fault, fault, fault, fault, fault, fault, fault,
};
