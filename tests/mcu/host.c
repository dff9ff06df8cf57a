/* What hash.c needs of hosts/mcu/qemu/host.h, for a program that runs on the host itself. */
#include <stdio.h>
#include <stdlib.h>
#include "host.h"

void host_print_number(uint32_t number)
{
    printf("%08lX\n", (unsigned long)number);
}

_Noreturn void host_exit(int success)
{
    exit(success ? EXIT_SUCCESS : EXIT_FAILURE);
}
