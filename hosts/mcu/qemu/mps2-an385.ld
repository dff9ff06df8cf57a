/* qemu-system-arm -M mps2-an385: a Cortex-M3. The board has 4 MiB of each. */
MEMORY
{
    FLASH (rx) : ORIGIN = 0x00000000, LENGTH = 256K
    RAM (rw) : ORIGIN = 0x20000000, LENGTH = 128K
}
INCLUDE mcu.ld
