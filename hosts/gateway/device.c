/* device.c: a device's table and store, and the store's safety on disk. */
#include <err.h>
#include <errno.h>
#include <fcntl.h>
#include <libgen.h>
#include <limits.h>
#include <stdio.h>
#include <stdlib.h>
#include <string.h>
#include <sys/stat.h>
#include <unistd.h>
#include "device.h"

void device_set_address(struct device *device, const char *text)
{
    size_t digits = strspn(text, "0123456789");
    unsigned long number = strtoul(text, NULL, 10);
    if (digits == 0 || text[digits] != '\0' || number > SDS_ADDRESS_MOST)
        errx(2, "address %s: not a number from 0 to %d", text, SDS_ADDRESS_MOST);
    device->address = (uint32_t)number;
}

/* The bytes of an open file. `bytes` has room for one more than `most`. */
static size_t read_all(int file, const char *path, uint8_t *bytes, size_t most)
{
    size_t length = 0;
    ssize_t count;
    while ((count = read(file, bytes + length, most + 1 - length)) > 0)
        length += (size_t)count;
    if (count < 0)
        err(2, "%s", path);
    if (length > most)
        errx(2, "%s: over %zu bytes", path, most);
    return length;
}

/* What is wrong with a table is found by asking the core about others: such with one thing of it, and all else well. */

static bool is_well(const struct sds_attribute *records, size_t count, size_t store_length)
{
    return sds_table_check((const uint8_t *)records, count * sizeof *records, store_length) == SDS_SERVED;
}

/* wherever it stands in the store */
static bool is_well_alone(struct sds_attribute record)
{
    memset(record.offset, 0, sizeof record.offset);
    return is_well(&record, 1, SDS_STORE_MOST);
}

static bool rises(const struct sds_attribute *before, const struct sds_attribute *record)
{
    const struct sds_attribute pair[2] = {
        {.object = before->object, .id = before->id, .length = 1},
        {.object = record->object, .id = record->id, .length = 1, .offset = {1, 0}},
    };
    return is_well(pair, 2, SDS_STORE_MOST);
}

/* The least store for records that are well in the longest. */
static size_t store_needed(const struct sds_attribute *records, size_t count)
{
    size_t least = 0, enough = SDS_STORE_MOST;
    while (least < enough) {
        size_t middle = (least + enough) / 2;
        if (is_well(records, count, middle))
            enough = middle;
        else
            least = middle + 1;
    }
    return enough;
}

static unsigned low_byte_first(const uint8_t bytes[2])
{
    return bytes[0] + 256u * bytes[1];
}

/* The rule of 01, "Object table", about bytes 0, 2, 3, 6 and 7 that a record breaks, or null. An access goes with plain data or with a descriptor. */
static const char *broken_in_itself(const struct sds_attribute *record)
{
    static char words[80];
    unsigned descriptor = low_byte_first(record->descriptor), size = sds_descriptor_size(descriptor);
    if (is_well_alone(*record))
        return NULL;
    bool plain = is_well_alone((struct sds_attribute){.access = record->access, .length = 1});
    bool network = is_well_alone((struct sds_attribute){.access = record->access, .length = 1, .descriptor = {0x00, 0x01} /* a Boolean */});
    if (!is_well_alone((struct sds_attribute){.object = record->object, .length = 1})) {
        snprintf(words, sizeof words, "the object is over %d", SDS_OBJECTS - 1);
        return words;
    }
    if (!plain && !network)
        return "the access has other bits than 1, 2 and 4";
    if (!is_well_alone((struct sds_attribute){.length = record->length}))
        return "the length is 0";
    if (plain)
        return "the data descriptor is not 0, and the access has no network data";
    if (size == 0)
        return "the data descriptor is refused";
    snprintf(words, sizeof words, "the length is %u, that of its data descriptor, %04X, is %u", record->length, descriptor, size);
    return words;
}

/* The rule that a record breaks where those before it are well. */
static const char *broken_rule(const struct sds_attribute *records, size_t place, size_t store_length)
{
    static char beyond[80];
    const struct sds_attribute *record = records + place;
    const char *rule = broken_in_itself(record);
    if (rule != NULL)
        return rule;
    size_t offset = store_needed(records, place);
    if (place > 0 && !rises(record - 1, record))
        return "object and attribute do not rise";
    if (low_byte_first(record->offset) != offset)
        return "the offset is not the end of the record before, or not 0 in the first";
    snprintf(beyond, sizeof beyond, "its end, %zu, is beyond a store of %zu bytes", offset + record->length, store_length);
    return beyond;
}

/* The first record that is at fault is the last of the fewest that the core refuses. */
static void check_table(const struct device *device, size_t store_length)
{
    const struct sds_attribute *records = (const struct sds_attribute *)device->table;
    size_t place = 0;
    uint32_t number = sds_table_check(device->table, device->table_length, store_length);
    if (number == SDS_SERVED)
        return;
    if (number == SDS_BAD_LENGTH)
        errx(2, "%s: %zu bytes, no multiple of %d", device->table_path, device->table_length, SDS_TABLE_RECORD);
    while (is_well(records, place + 1, store_length))
        place++;
    char bytes[3 * SDS_TABLE_RECORD + 1];
    for (size_t i = 0; i < SDS_TABLE_RECORD; i++)
        sprintf(bytes + 3 * i, " %02X", device->table[place * SDS_TABLE_RECORD + i]);
    errx(2, "%s: record %zu (%s): %s", device->table_path, place, bytes + 1, broken_rule(records, place, store_length));
}

void device_load_table(struct device *device, const char *path)
{
    device->table_path = path;
    int file = open(path, O_RDONLY | O_CLOEXEC);
    if (file < 0)
        err(2, "%s", path);
    device->table_length = read_all(file, path, device->table, SDS_TABLE_MOST);
    close(file);
}

void device_make_store(struct device *device)
{
    check_table(device, SDS_STORE_MOST);
    device->store_length = store_needed((const struct sds_attribute *)device->table, device->table_length / SDS_TABLE_RECORD);
}

/* The file itself is replaced, not a link to it. dirname and basename cut up what they are given. */
static void open_folder(struct device *device, const char *path)
{
    char whole[PATH_MAX + 1], cut[PATH_MAX + 1];
    device->store_path = path;
    if (realpath(path, whole) == NULL) {
        if (errno != ENOENT)
            err(2, "%s", path);
        snprintf(whole, sizeof whole, "%s", path);
    }
    strcpy(cut, whole);
    device->folder = open(dirname(cut), O_RDONLY | O_DIRECTORY | O_CLOEXEC);
    if (device->folder < 0 || asprintf(&device->name, "%s", basename(whole)) < 0 || asprintf(&device->new_name, "%s.new", device->name) < 0)
        err(2, "%s", path);
}

static void must(const struct device *device, bool done)
{
    if (!done)
        err(1, "%s: not saved", device->store_path);
}

static bool write_all(int file, const uint8_t *bytes, size_t length)
{
    while (length > 0) {
        ssize_t count = write(file, bytes, length);
        if (count < 0)
            return false;
        bytes += count;
        length -= (size_t)count;
    }
    return true;
}

/* A whole new file takes the old one's place, so a crash at any moment leaves the one or the other. What a crash left half made goes. */
static void write_store(struct device *device)
{
    struct stat old;
    bool replaces = fstatat(device->folder, device->name, &old, 0) == 0;
    unlinkat(device->folder, device->new_name, 0);
    int file = openat(device->folder, device->new_name, O_WRONLY | O_CREAT | O_EXCL | O_CLOEXEC, 0666);
    must(device, file >= 0);
    must(device, !replaces || fchmod(file, old.st_mode & 0777) == 0);
    must(device, write_all(file, device->store, device->store_length));
    must(device, fsync(file) == 0);
    must(device, close(file) == 0);
    must(device, renameat(device->folder, device->new_name, device->folder, device->name) == 0);
    must(device, fsync(device->folder) == 0);
}

void device_load_store(struct device *device, const char *path, bool make)
{
    struct stat kind;
    open_folder(device, path);
    int file = openat(device->folder, device->name, O_RDONLY | O_CLOEXEC);
    if (file < 0 && errno == ENOENT && make) {
        device_make_store(device);
        write_store(device);
        return;
    }
    if (file < 0 && errno == ENOENT)
        errx(2, "%s: no such file; --new-store makes it", path);
    if (file < 0 || fstat(file, &kind) < 0)
        err(2, "%s", path);
    if (!S_ISREG(kind.st_mode))
        errx(2, "%s: no regular file", path);
    device->store_length = read_all(file, path, device->store, SDS_STORE_MOST);
    check_table(device, device->store_length);
    /* a program that was killed may have renamed it and no more; from here on it counts as saved */
    must(device, fsync(file) == 0 && fsync(device->folder) == 0);
    close(file);
    memcpy(device->saved, device->store, device->store_length);
}

uint32_t device_step(struct device *device, const uint8_t record[SDS_RECORD])
{
    const struct sds_device lent = {
        .address = device->address,
        .table = {device->table, device->table_length},
        .store = {device->store, device->store_length},
        .work = {device->work, sizeof device->work},
        .out = {device->out, sizeof device->out},
    };
    return sds_device_step(&lent, record, SDS_RECORD);
}

void device_save(struct device *device)
{
    if (memcmp(device->saved, device->store, device->store_length) == 0)
        return;
    write_store(device);
    memcpy(device->saved, device->store, device->store_length);
}
