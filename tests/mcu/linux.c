/*
 * linux.c: what hash.c needs of hosts/mcu/qemu/host.h on a RISC-V of 32 bits, as a program of Linux, which qemu-riscv32 runs. The streams, in C,
 * multiply and divide, and this part cannot: the routines that their compiler then calls are here.
 */
#include "host.h"

enum { WRITE = 64, EXIT = 93 };

static void call(uint32_t number, uint32_t first, uintptr_t second, uint32_t third)
{
    register uint32_t a7 __asm__("a7") = number;
    register uint32_t a0 __asm__("a0") = first;
    register uintptr_t a1 __asm__("a1") = second;
    register uint32_t a2 __asm__("a2") = third;
    __asm__ volatile("ecall" : "+r"(a0) : "r"(a7), "r"(a1), "r"(a2) : "memory");
}

void host_print_number(uint32_t number)
{
    char text[9];
    for (int i = 0; i < 8; i++)
        text[i] = "0123456789ABCDEF"[number >> (28 - 4 * i) & 15];
    text[8] = '\n';
    call(WRITE, 1, (uintptr_t)text, sizeof text);
}

_Noreturn void host_exit(int success)
{
    for (;;)
        call(EXIT, !success, 0, 0);
}

uint32_t __mulsi3(uint32_t a, uint32_t b);
uint32_t __mulsi3(uint32_t a, uint32_t b)
{
    uint32_t product = 0;
    for (; b; b >>= 1, a += a)
        if (b & 1)
            product += a;
    return product;
}

/* of bytes, so this is quick enough */
uint32_t __umodsi3(uint32_t a, uint32_t b);
uint32_t __umodsi3(uint32_t a, uint32_t b)
{
    while (a >= b)
        a -= b;
    return a;
}

int main(void);

void _start(void);
void _start(void)
{
    main();
}
