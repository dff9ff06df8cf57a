/* start.c: from reset to main, for any Cortex-M. The places are mcu.ld's. A chip's own interrupts come behind the sixteen vectors below. */
#include <stdint.h>
#include "start.h"

extern uint32_t stack_top[], data_image[], data_start[], data_end[], bss_start[], bss_end[];

int main(void);

__attribute__((weak)) void halt(void)
{
    for (;;) {
    }
}

void reset(void)
{
    const uint32_t *from = data_image;
    for (uint32_t *to = data_start; to < data_end; to++)
        *to = *from++;
    for (uint32_t *to = bss_start; to < bss_end; to++)
        *to = 0;
    main();
    halt();
}

typedef void (*handler)(void);

__attribute__((section(".vectors"), used)) static const struct {
    uint32_t *stack;
    handler handlers[15];
} vectors = {stack_top, {
    reset, halt /* NMI */, halt /* HardFault */, halt /* MemManage */, halt /* BusFault */, halt /* UsageFault */, 0, 0, 0, 0,
    halt /* SVCall */, halt /* DebugMonitor */, 0, halt /* PendSV */, halt /* SysTick */
}};
