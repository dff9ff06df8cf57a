/* qemu-system-arm -M microbit: a Cortex-M0, nRF51822. */
MEMORY
{
    FLASH (rx) : ORIGIN = 0x00000000, LENGTH = 256K
    RAM (rw) : ORIGIN = 0x20000000, LENGTH = 16K
}
INCLUDE mcu.ld
