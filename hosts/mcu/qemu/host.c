#include "host.h"
#include "start.h"

enum { SYS_OPEN = 0x01, SYS_CLOSE = 0x02, SYS_WRITE0 = 0x04, SYS_WRITE = 0x05, SYS_READ = 0x06, SYS_EXIT = 0x18 };
enum { STOPPED_WELL = 0x20026, STOPPED_BY_ERROR = 0x20023 };

/* An operation takes one word, or the address of a block of words. */
static uint32_t call(uint32_t operation, uintptr_t argument)
{
    register uint32_t r0 __asm__("r0") = operation;
    register uintptr_t r1 __asm__("r1") = argument;
    __asm__ volatile("bkpt 0xAB" : "+r"(r0) : "r"(r1) : "memory");
    return r0;
}

static uint32_t length_of(const char *text)
{
    uint32_t length = 0;
    while (text[length])
        length++;
    return length;
}

int host_open(const char *name, enum host_mode mode)
{
    const uintptr_t block[3] = {(uintptr_t)name, mode, length_of(name)};
    return (int)call(SYS_OPEN, (uintptr_t)block);
}

void host_close(int file)
{
    const uintptr_t block[1] = {(uintptr_t)file};
    call(SYS_CLOSE, (uintptr_t)block);
}

uint32_t host_read(int file, void *bytes, uint32_t count)
{
    const uintptr_t block[3] = {(uintptr_t)file, (uintptr_t)bytes, count};
    return count - call(SYS_READ, (uintptr_t)block); /* which gives the bytes that it did not read */
}

void host_write(int file, const void *bytes, uint32_t count)
{
    const uintptr_t block[3] = {(uintptr_t)file, (uintptr_t)bytes, count};
    if (call(SYS_WRITE, (uintptr_t)block) != 0) {
        host_print("a file could not be written\n");
        host_exit(0);
    }
}

void host_print(const char *text)
{
    call(SYS_WRITE0, (uintptr_t)text);
}

void host_print_number(uint32_t number)
{
    char text[] = "00000000\n";
    for (int i = 0; i < 8; i++)
        text[i] = "0123456789ABCDEF"[number >> (28 - 4 * i) & 15];
    host_print(text);
}

_Noreturn void host_exit(int success)
{
    for (;;)
        call(SYS_EXIT, success ? STOPPED_WELL : STOPPED_BY_ERROR);
}

/* in place of start.c's, which would leave the emulator running */
void halt(void)
{
    host_print("halted: a fault, or main could not go on\n");
    host_exit(0);
}
