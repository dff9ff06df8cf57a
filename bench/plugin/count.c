/*
 * A plugin of qemu's user mode emulator: counts the instructions that a program executes between two marks, and writes each count as a
 * line. Arguments: begin=ADDRESS and end=ADDRESS, the marks, instructions of the program that are not counted; counts=FILE, the lines.
 * With whole=on in place of the marks it counts the whole program and writes one line at its end.
 */
#include <inttypes.h>
#include <stdbool.h>
#include <stdio.h>
#include <stdlib.h>
#include <string.h>
#include "qemu.h"

int qemu_plugin_version = QEMU_PLUGIN_VERSION;

static uint64_t begin, end, count;
static bool whole;
static FILE *counts;

static void executed(unsigned vcpu, void *data)
{
    (void)vcpu, (void)data;
    count++;
}

static void begun(unsigned vcpu, void *data)
{
    (void)vcpu, (void)data;
    count = 0;
}

static void ended(unsigned vcpu, void *data)
{
    (void)vcpu, (void)data;
    fprintf(counts, "%" PRIu64 "\n", count);
    fflush(counts);    /* the emulator leaves without closing files */
}

static void left(qemu_plugin_id_t id, void *data)
{
    (void)id;
    ended(0, data);
}

static void translated(qemu_plugin_id_t id, struct qemu_plugin_tb *tb)
{
    (void)id;
    for (size_t i = 0; i < qemu_plugin_tb_n_insns(tb); i++) {
        struct qemu_plugin_insn *insn = qemu_plugin_tb_get_insn(tb, i);
        uint64_t address = qemu_plugin_insn_vaddr(insn);
        qemu_plugin_vcpu_udata_cb *what = address == begin ? begun : address == end ? ended : executed;
        qemu_plugin_register_vcpu_insn_exec_cb(insn, what, QEMU_PLUGIN_CB_NO_REGS, NULL);
    }
}

int qemu_plugin_install(qemu_plugin_id_t id, const struct qemu_info *info, int argc, char **argv)
{
    (void)info;
    for (int i = 0; i < argc; i++) {
        if (!strncmp(argv[i], "begin=", 6))
            begin = strtoull(argv[i] + 6, NULL, 16);
        else if (!strncmp(argv[i], "end=", 4))
            end = strtoull(argv[i] + 4, NULL, 16);
        else if (!strncmp(argv[i], "counts=", 7))
            counts = fopen(argv[i] + 7, "w");
        else if (!strcmp(argv[i], "whole=on"))
            whole = true;
    }
    if ((whole ? begin || end : !begin || !end) || !counts) {
        fputs("count: begin= and end=, or whole=on, or counts= is missing, or that file cannot be written\n", stderr);
        return 1;
    }
    if (whole)
        qemu_plugin_register_atexit_cb(id, left, NULL);
    qemu_plugin_register_vcpu_tb_trans_cb(id, translated);
    return 0;
}
