/* A plugin of the emulator that counts instructions exactly, for machines on which x86-64 programs
 * are emulated:
 *
 *     qemu-x86_64 -plugin ./instructions.so -d plugin PROGRAM
 *
 * prints "Collected : N" on standard error when the program ends, as valgrind does. The emulator
 * comes without its header, so what is used of it is declared here.
 */
#include <inttypes.h>
#include <stddef.h>
#include <stdint.h>
#include <stdio.h>

struct block; /* instructions that are translated together and run one after another */
struct about;

enum { ADD = 0 }; /* what is done inline each time a block runs */

void qemu_plugin_register_vcpu_tb_trans_cb(uint64_t id, void (*translated)(uint64_t, struct block *));
size_t qemu_plugin_tb_n_insns(const struct block *block);
void qemu_plugin_register_vcpu_tb_exec_inline(struct block *block, int what, void *number, uint64_t by);
void qemu_plugin_register_atexit_cb(uint64_t id, void (*ended)(uint64_t, void *), void *data);
void qemu_plugin_outs(const char *text);

int qemu_plugin_version = 1;
int qemu_plugin_install(uint64_t id, const struct about *about, int count, char **words);

static uint64_t instructions;

static void translated(uint64_t id, struct block *block)
{
    (void)id;
    qemu_plugin_register_vcpu_tb_exec_inline(block, ADD, &instructions, qemu_plugin_tb_n_insns(block));
}

static void ended(uint64_t id, void *data)
{
    char line[64];
    (void)id, (void)data;
    snprintf(line, sizeof line, "Collected : %" PRIu64 "\n", instructions);
    qemu_plugin_outs(line);
}

int qemu_plugin_install(uint64_t id, const struct about *about, int count, char **words)
{
    (void)about, (void)count, (void)words;
    qemu_plugin_register_vcpu_tb_trans_cb(id, translated);
    qemu_plugin_register_atexit_cb(id, ended, NULL);
    return 0;
}
