/* A plugin for qemu-user (plugin interface 1: qemu 6 to 8): the instructions that run inside the function `measured` of the emulated program but for its last
   return, callees included, by the function that they stand in. For hosts where valgrind is not there or cannot run an x86-64 program.

       cc -O2 -fPIC -shared -o count.so count.c
       qemu-x86_64 -cpu qemu64 -plugin ./count.so,out=FILE PROGRAM ..

   FILE has a line `COUNT FUNCTION` for each function of each call of `measured`, and an empty line after each call. What has no name in the program is the C
   library's. */
#include <stdint.h>
#include <stdio.h>
#include <stdlib.h>
#include <string.h>

/* What is used of qemu's header, which the package does not carry. */
typedef uint64_t plugin_id;
struct qemu_plugin_tb;
struct qemu_plugin_insn;
size_t qemu_plugin_tb_n_insns(const struct qemu_plugin_tb *block);
struct qemu_plugin_insn *qemu_plugin_tb_get_insn(const struct qemu_plugin_tb *block, size_t i);
const char *qemu_plugin_insn_symbol(const struct qemu_plugin_insn *instruction);
const void *qemu_plugin_insn_data(const struct qemu_plugin_insn *instruction);
uint64_t qemu_plugin_insn_vaddr(const struct qemu_plugin_insn *instruction);
void qemu_plugin_register_vcpu_tb_trans_cb(plugin_id id, void (*seen)(plugin_id, struct qemu_plugin_tb *));
void qemu_plugin_register_vcpu_insn_exec_cb(struct qemu_plugin_insn *instruction, void (*run)(unsigned, void *), int flags, void *data);
void qemu_plugin_register_vcpu_insn_exec_inline(struct qemu_plugin_insn *instruction, int add, void *to, uint64_t n);

__attribute__((visibility("default"))) int qemu_plugin_version = 1;

enum { FUNCTIONS = 4096, RETURN = 0xc3 };
static struct function {
    const char *name;
    uint64_t count;
} functions[FUNCTIONS];
static int used;
static uint64_t entry; /* the address of `measured`; 0 until it is seen */
static FILE *out;

static void fail(const char *words)
{
    fprintf(stderr, "count: %s\n", words);
    exit(1);
}

static struct function *function_of(const char *name)
{
    for (int i = 0; i < used; i++)
        if (functions[i].name == name || strcmp(functions[i].name, name) == 0)
            return &functions[i];
    if (used == FUNCTIONS)
        fail("too many functions");
    functions[used].name = name;
    return &functions[used++];
}

static void begin(unsigned cpu, void *data)
{
    (void)cpu, (void)data;
    for (int i = 0; i < used; i++)
        functions[i].count = 0;
}

static void end(unsigned cpu, void *data)
{
    (void)cpu, (void)data;
    for (int i = 0; i < used; i++)
        if (functions[i].count != 0)
            fprintf(out, "%llu %s\n", (unsigned long long)functions[i].count, functions[i].name);
    fprintf(out, "\n");
    if (fflush(out) != 0)
        fail("the counts could not be written");
}

static void translated(plugin_id id, struct qemu_plugin_tb *block)
{
    (void)id;
    for (size_t i = 0; i < qemu_plugin_tb_n_insns(block); i++) {
        struct qemu_plugin_insn *instruction = qemu_plugin_tb_get_insn(block, i);
        const char *name = qemu_plugin_insn_symbol(instruction);
        if (name != NULL && strcmp(name, "measured") == 0) {
            if (entry == 0)
                entry = qemu_plugin_insn_vaddr(instruction);
            if (qemu_plugin_insn_vaddr(instruction) == entry)
                qemu_plugin_register_vcpu_insn_exec_cb(instruction, begin, 0, NULL);
            if (*(const unsigned char *)qemu_plugin_insn_data(instruction) == RETURN)
                qemu_plugin_register_vcpu_insn_exec_cb(instruction, end, 0, NULL);
        }
        qemu_plugin_register_vcpu_insn_exec_inline(instruction, 0, &function_of(name == NULL ? "(C library)" : name)->count, 1);
    }
}

__attribute__((visibility("default"))) int qemu_plugin_install(plugin_id id, const void *host, int arguments, char **argument)
{
    (void)host;
    if (arguments != 1 || strncmp(argument[0], "out=", 4) != 0 || (out = fopen(argument[0] + 4, "w")) == NULL)
        return 1;
    qemu_plugin_register_vcpu_tb_trans_cb(id, translated);
    return 0;
}
