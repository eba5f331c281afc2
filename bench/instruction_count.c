/* A plugin for qemu-user: counts the instructions that an x86-64 program executes, and how many
 * of them divide whole numbers, and prints both on standard error when the program ends.
 * The declarations are those of qemu's plugin interface, version 1, as far as they are used. */
#include <stddef.h>
#include <stdint.h>
#include <stdio.h>

typedef uint64_t qemu_plugin_id_t;
typedef struct qemu_info_t qemu_info_t;
struct qemu_plugin_tb;
struct qemu_plugin_insn;
enum qemu_plugin_op { QEMU_PLUGIN_INLINE_ADD_U64 };
typedef void (*translated_cb)(qemu_plugin_id_t, struct qemu_plugin_tb *);
typedef void (*ended_cb)(qemu_plugin_id_t, void *);
void qemu_plugin_register_vcpu_tb_trans_cb(qemu_plugin_id_t, translated_cb);
void qemu_plugin_register_vcpu_tb_exec_inline(struct qemu_plugin_tb *, enum qemu_plugin_op, void *,
                                              uint64_t);
void qemu_plugin_register_atexit_cb(qemu_plugin_id_t, ended_cb, void *);
size_t qemu_plugin_tb_n_insns(const struct qemu_plugin_tb *);
struct qemu_plugin_insn *qemu_plugin_tb_get_insn(const struct qemu_plugin_tb *, size_t);
const void *qemu_plugin_insn_data(const struct qemu_plugin_insn *);
size_t qemu_plugin_insn_size(const struct qemu_plugin_insn *);

int qemu_plugin_version = 1;
static uint64_t instructions, divides;

/* DIV and IDIV are F6 and F7 with 6 or 7 in the middle of the next byte, after prefixes. */
static int is_divide(const uint8_t *at, size_t size)
{
    size_t i = 0;

    while (i < size && (at[i] == 0x66 || (at[i] & 0xF0) == 0x40))
        i++;
    return i + 1 < size && (at[i] & 0xFE) == 0xF6 && (at[i + 1] & 0x30) == 0x30;
}

/* A string instruction that repeats: F2 or F3 among the prefixes, then 6C to 6F, A4 to A7 or AA to
 * AF. The C library clears more than 2,048 bytes by one such instruction. */
static int repeats(const uint8_t *at, size_t size)
{
    size_t i = 0;
    int found = 0;

    for (; i < size && (at[i] == 0x66 || (at[i] & 0xFE) == 0xF2 || (at[i] & 0xF0) == 0x40); i++)
        found |= (at[i] & 0xFE) == 0xF2;
    return found && i < size &&
           ((at[i] & 0xFC) == 0x6C || (at[i] & 0xFC) == 0xA4 || (at[i] >= 0xAA && at[i] <= 0xAF));
}

/* Called for each block of code when it is first met; the block's counts are added each time
 * that it is run. An instruction that repeats begins a block of its own each time that it goes on:
 * it counts once, as a processor's own counter has it, and not once for each byte. */
static void translated(qemu_plugin_id_t id, struct qemu_plugin_tb *block)
{
    size_t n = qemu_plugin_tb_n_insns(block), found = 0;
    struct qemu_plugin_insn *first = qemu_plugin_tb_get_insn(block, 0);
    size_t again = repeats(qemu_plugin_insn_data(first), qemu_plugin_insn_size(first));

    (void)id;
    for (size_t i = 0; i < n; i++) {
        struct qemu_plugin_insn *one = qemu_plugin_tb_get_insn(block, i);

        found += is_divide(qemu_plugin_insn_data(one), qemu_plugin_insn_size(one));
    }
    qemu_plugin_register_vcpu_tb_exec_inline(block, QEMU_PLUGIN_INLINE_ADD_U64, &instructions,
                                             n - again);
    if (found)
        qemu_plugin_register_vcpu_tb_exec_inline(block, QEMU_PLUGIN_INLINE_ADD_U64, &divides,
                                                 found);
}

static void ended(qemu_plugin_id_t id, void *none)
{
    (void)id;
    (void)none;
    fprintf(stderr, "instructions %llu divides %llu\n", (unsigned long long)instructions,
            (unsigned long long)divides);
}

int qemu_plugin_install(qemu_plugin_id_t id, const qemu_info_t *info, int argc, char **argv)
{
    (void)info;
    (void)argc;
    (void)argv;
    qemu_plugin_register_vcpu_tb_trans_cb(id, translated);
    qemu_plugin_register_atexit_cb(id, ended, NULL);
    return 0;
}
