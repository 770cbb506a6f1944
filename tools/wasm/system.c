/* What the program has in place of an operating system: reads, writes and the words of the command line, which the page gives. There is
 * no environment, no signal and no file: whatever name is opened, there is none. Failures are told as C's library tells them: -1, and a
 * number for rattle_errno. */

#include "wasm.h"

#define OF_PAGE(name) __attribute__((import_module("env"), import_name(#name)))

OF_PAGE(read) i64 page_read(i32 descriptor, u8 *at, u64 count);
OF_PAGE(write) i64 page_write(i32 descriptor, const u8 *at, u64 count);
OF_PAGE(arg) i64 page_arg(u64 index, u8 *at, u64 room);

enum { NO_FILE = 2, BAD_DESCRIPTOR = 9, NOT_SEEKABLE = 29 }; /* Linux's ENOENT, EBADF and ESPIPE */

static i32 last_error;

static i64 told(i64 answer, i32 error) {
    if (answer < 0)
        last_error = error;
    return answer;
}

i64 read(i32 descriptor, u8 *at, u64 count) { return told(page_read(descriptor, at, count), BAD_DESCRIPTOR); }

i64 write(i32 descriptor, const u8 *at, u64 count) { return told(page_write(descriptor, at, count), BAD_DESCRIPTOR); }

i64 __write(i32 descriptor, const u8 *at, u64 count) { return write(descriptor, at, count); }

/* Input and output are as pipes. */
i64 lseek(i32 descriptor, i64 offset, i32 from) { return told(-1, NOT_SEEKABLE); }

i32 open(const u8 *name, i32 flags, ...) { return (i32)told(-1, NO_FILE); }

i32 close(i32 descriptor) { return (i32)told(-1, BAD_DESCRIPTOR); }

i32 rattle_errno(void) { return last_error; }

void rattle_set_errno(i32 error) { last_error = error; }

/* Puts a word at the start of the room and answers its length; -1 where there is no such word, or -2 where it doesn't fit, and then the
 * room is full. */
i64 rattle_arg(u64 index, u8 *at, u64 room) {
    i64 length = page_arg(index, at, room);
    return length > 0 && (u64)length > room ? -2 : length;
}

i64 rattle_env(const u8 *name, u8 *at, u64 room) { return -1; }

i64 rattle_env_at(u64 index, u8 *at, u64 room) { return -1; }

/* There are no signals; the handler before was the default one. */
u64 __sysv_signal(i32 signal, u64 handler) { return 0; }

/* A native program first asks whether its processor has what it was compiled for. This one was compiled for any engine. */
const u32 *__x86_get_cpuid_feature_leaf(u32 leaf) {
    static const u32 has_all[8] = {~0u, ~0u, ~0u, ~0u, ~0u, ~0u, ~0u, ~0u};
    return has_all;
}
