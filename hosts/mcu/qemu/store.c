/* The non-volatile memory of an emulated board: the file `store`. */
#include "host.h"
#include "store.h"

void store_open(uint8_t *store, uint32_t length)
{
    int file = host_open("store", HOST_READ);
    if (file < 0)
        return; /* a new device */
    host_read(file, store, length);
    host_close(file);
}

void store_changed(const uint8_t *store, uint32_t length)
{
    int file = host_open("store", HOST_WRITE);
    if (file < 0) {
        host_print("the file store cannot be written\n");
        host_exit(0);
    }
    host_write(file, store, length);
    host_close(file);
}
