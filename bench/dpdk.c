/* Runs a program on the BPF interpreter of DPDK (librte_bpf), for comparison: dpdk arithmetic|memory|mixed CALLS; or
   loads one of so many instructions and a few, which its verifier takes first and it then makes machine code of: dpdk
   INSTRUCTIONS TIMES verify. The programs are those of crates/bench, by the word machine. It says how many instructions
   were run, or slots were taken; the time is taken by whoever starts it (bench/machine). */
#include <rte_bpf.h>
#include <stdint.h>
#include <stdio.h>
#include <stdlib.h>
#include <string.h>

enum { SLOTS = 4160, REPEATED = 4000 };

static struct ebpf_insn slots[SLOTS];
static uint32_t count;

static void put(uint8_t code, int dst, int src, int16_t offset, int32_t immediate)
{
    slots[count++] = (struct ebpf_insn){.code = code, .dst_reg = dst, .src_reg = src, .off = offset, .imm = immediate};
}

static void put_body(const char *kind)
{
    if (strcmp(kind, "arithmetic") == 0) {
        put(0x0f, 6, 7, 0, 0), put(0xaf, 7, 6, 0, 0), put(0x27, 6, 0, 0, 3), put(0x77, 7, 0, 0, 1);
    } else if (strcmp(kind, "memory") == 0) {
        put(0x7b, 10, 6, -8, 0), put(0x79, 7, 10, -8, 0);
    } else {
        put(0x0f, 6, 7, 0, 0), put(0xa7, 8, 0, 0, 5), put(0x7b, 10, 6, -16, 0), put(0x07, 9, 0, 0, 1);
        put(0x79, 3, 10, -16, 0), put(0x15, 9, 0, 0, 0), put(0xbf, 1, 8, 0, 0), put(0x67, 2, 0, 0, 1);
        put(0x4f, 1, 2, 0, 0), put(0x77, 2, 0, 0, 1);
    }
}

static void put_program(const char *kind, uint32_t instructions)
{
    static const int32_t starts[] = {7, 9, 3, 5, 1, 2, 3};
    static const int registers[] = {6, 7, 8, 9, 1, 2, 3};
    for (int i = 0; i < 7; i++) put(0xb7, registers[i], 0, 0, starts[i]);
    for (uint32_t first = count; count - first < instructions;) {
        uint32_t before = count;
        put_body(kind);
        if (count - first > instructions) count = before, instructions = 0;
    }
    put(0xbf, 0, 6, 0, 0), put(0x95, 0, 0, 0, 0);
}

static struct rte_bpf *loaded(void)
{
    struct rte_bpf_prm program = {.ins = slots, .nb_ins = count, .prog_arg = {.type = RTE_BPF_ARG_RAW, .size = 8}};
    struct rte_bpf *made = rte_bpf_load(&program);
    if (made == NULL) {
        fputs("dpdk: the program isn't loaded\n", stderr);
        exit(1);
    }
    return made;
}

int main(int argc, char **argv)
{
    if (argc < 4) return 2;
    uint32_t instructions = strtoul(argv[1], NULL, 10);
    long times = atol(argv[2]);
    put_program(instructions ? "mixed" : argv[1], instructions ? instructions : REPEATED);
    if (instructions) {
        for (long load = 0; load < times && strcmp(argv[3], "verify") == 0; load++) rte_bpf_destroy(loaded());
        printf("slots %llu\n", (unsigned long long)times * count);
        return 0;
    }
    static uint8_t argument[8];
    struct rte_bpf *made = loaded();
    uint64_t sum = 0;
    for (long call = 0; call < times; call++) sum += rte_bpf_exec(made, argument);
    printf("instructions %llu\n", (unsigned long long)times * count);
    return sum == 1;
}
