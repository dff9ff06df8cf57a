/* host.h: the machine that an emulator or a debug probe runs on, by Arm semihosting. Nothing of this directory is for a product. */
#ifndef HOST_H
#define HOST_H

#include <stdint.h>

enum host_mode { HOST_READ = 1, HOST_WRITE = 5 }; /* "rb" and "wb" of C */

/* A file of the emulator's working directory; below 0 where it cannot be opened. */
int host_open(const char *name, enum host_mode mode);

void host_close(int file);

/* Reads up to so many bytes and gives how many it were. */
uint32_t host_read(int file, void *bytes, uint32_t count);

/* Writes all bytes, or ends the program. */
void host_write(int file, const void *bytes, uint32_t count);

/* Text to the emulator's console. */
void host_print(const char *text);

/* Eight digits in hex and the end of the line. */
void host_print_number(uint32_t number);

/* Ends the emulator, with success or not. */
_Noreturn void host_exit(int success);

#endif
