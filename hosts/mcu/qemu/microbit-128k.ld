/* qemu-system-arm -M microbit -global nrf51-soc.sram-size=131072: a Cortex-M0 with more memory than an nRF51822 has, for tests that need it. */
MEMORY
{
    FLASH (rx) : ORIGIN = 0x00000000, LENGTH = 256K
    RAM (rw) : ORIGIN = 0x20000000, LENGTH = 128K
}
INCLUDE mcu.ld
