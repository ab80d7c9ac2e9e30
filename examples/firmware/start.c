// The vector table, and what runs before and behind main: copies .data, clears .bss, and stops by a breakpoint with main's answer in r0.
#include <stdint.h>

extern uint32_t stack_top, data_start, data_end, data_source, bss_start, bss_end;
int main(void);

void reset(void)
{
    const uint32_t *from = &data_source;
    for (uint32_t *to = &data_start; to < &data_end;) *to++ = *from++;
    for (uint32_t *to = &bss_start; to < &bss_end;) *to++ = 0;
    register int result __asm__("r0") = main();
    __asm__ volatile("bkpt #0" ::"r"(result));
}

// Interrupt 0 counts in a word that nothing else uses. A schedule lets handlers store there: region 20001000 20001004.
void interrupt_0(void)
{
    volatile uint32_t *count = (volatile uint32_t *)0x20001000;
    *count = *count + 1;
}

// The initial stack pointer, the first instruction, and the handler of interrupt 0 at the place of exception 16.
__attribute__((section(".vectors"), used)) static const void *const vectors[17] = {[0] = &stack_top, [1] = (void *)reset, [16] = (void *)interrupt_0};
