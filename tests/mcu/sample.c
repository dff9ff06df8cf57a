/*
 * sample.c: the sample device on the archive for x86-64, with the files of the emulated boards in the working directory: `frames` in,
 * `answers` out, `store` both. Ten bytes FF among the frames stand for lost ones, upon which the work area is cleared.
 */
#include <stdio.h>
#include <stdlib.h>
#include <string.h>
#include "sds.h"

static const uint8_t table[] = {
#include "sample_table.h"
};
static const uint8_t loss[SDS_RECORD] = {0xFF, 0xFF, 0xFF, 0xFF, 0xFF, 0xFF, 0xFF, 0xFF, 0xFF, 0xFF};

static uint8_t store[67], work[SDS_WORK], out[SDS_OUT];

static const struct sds_device device = {
    .address = 9,
    .table = {table, sizeof table},
    .store = {store, sizeof store},
    .work = {work, sizeof work},
    .out = {out, sizeof out},
};

static FILE *opened(const char *name, const char *mode)
{
    FILE *file = fopen(name, mode);
    if (!file) {
        perror(name);
        exit(EXIT_FAILURE);
    }
    return file;
}

static void serve(const uint8_t record[SDS_RECORD], FILE *answers)
{
    uint32_t reply = sds_device_step(&device, record, SDS_RECORD);
    if (fwrite(out, SDS_RECORD, SDS_COUNT(reply), answers) != SDS_COUNT(reply))
        exit(EXIT_FAILURE);
}

int main(void)
{
    uint8_t record[SDS_RECORD];
    FILE *kept = opened("store", "a+b"), *frames = opened("frames", "rb"), *answers = opened("answers", "wb");
    if (fread(store, 1, sizeof store, kept) == 0)
        rewind(kept); /* a new device */
    while (fread(record, SDS_RECORD, 1, frames) == 1) {
        if (memcmp(record, loss, SDS_RECORD) == 0)
            memset(work, 0, sizeof work);
        else
            serve(record, answers);
    }
    kept = freopen("store", "wb", kept);
    return kept && fwrite(store, sizeof store, 1, kept) == 1 && fclose(kept) == 0 && fclose(answers) == 0 ? EXIT_SUCCESS : EXIT_FAILURE;
}
