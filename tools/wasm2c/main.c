/* The program `arpasim` on a system with C: it runs the module, which wasm2c made C of, over standard input, output and the words of the
 * command line. The module asks for three functions, as tools/wasm/system.c of the repository says. */

#include <errno.h>
#include <signal.h>
#include <stdio.h>
#include <stdlib.h>
#include <string.h>
#include <unistd.h>

#include "arpasim.h"
#include "wasm-rt.h"

struct Z_env_instance_t {
    Z_arpasim_instance_t *module;
    int count;
    char **words;
};

/* Where octets of the module's memory are, all of which have to be in it. */
static u8 *octets_at(struct Z_env_instance_t *env, u64 address, u64 count) {
    wasm_rt_memory_t *memory = Z_arpasimZ_memory(env->module);
    if (address > memory->size || count > memory->size - address)
        abort();
    return memory->data + address;
}

u64 Z_envZ_read(struct Z_env_instance_t *env, u32 descriptor, u64 address, u64 count) {
    u8 *octets = octets_at(env, address, count);
    ssize_t read_now = -1;
    if (descriptor == STDIN_FILENO)
        do
            read_now = read(STDIN_FILENO, octets, count);
        while (read_now < 0 && errno == EINTR);
    return (u64)(s64)read_now;
}

u64 Z_envZ_write(struct Z_env_instance_t *env, u32 descriptor, u64 address, u64 count) {
    u8 *octets = octets_at(env, address, count);
    ssize_t written = -1;
    if (descriptor == STDOUT_FILENO || descriptor == STDERR_FILENO)
        do
            written = write((int)descriptor, octets, count);
        while (written < 0 && errno == EINTR);
    return (u64)(s64)written;
}

u64 Z_envZ_arg(struct Z_env_instance_t *env, u64 index, u64 address, u64 room) {
    if (index >= (u64)env->count)
        return (u64)-1;
    u64 length = strlen(env->words[index]);
    u64 put = length < room ? length : room;
    memcpy(octets_at(env, address, put), env->words[index], put);
    return length;
}

int main(int count, char **words) {
    static Z_arpasim_instance_t module;
    struct Z_env_instance_t env = {&module, count, words};
    signal(SIGPIPE, SIG_IGN); /* a write to a reader that went away fails, and the program says so */
    wasm_rt_init();
    Z_arpasim_init_module();
    Z_arpasim_instantiate(&module, &env);
    return (int)(Z_arpasimZ_main(&module, (u32)count, 0) & 255);
}
