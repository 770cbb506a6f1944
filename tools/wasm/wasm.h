/* What the program asks of its surroundings, and what these ask of the page (env). */

typedef unsigned char u8;
typedef unsigned int u32;
typedef unsigned long long u64;
typedef int i32;
typedef long long i64;

/* Whether there is a block, and where; without one, `at` points to memory that nobody uses. */
struct tried {
    u64 ok;
    u8 *at;
};

/* heap.c */
struct tried rattle_alloc(u64 size, u64 align);
struct tried rattle_realloc(u8 *block, u64 kept, u64 size, u64 align);
void rattle_dealloc(u8 *block);

/* system.c */
i64 read(i32 descriptor, u8 *at, u64 count);
i64 write(i32 descriptor, const u8 *at, u64 count);
i64 __write(i32 descriptor, const u8 *at, u64 count);
i64 lseek(i32 descriptor, i64 offset, i32 from);
i32 open(const u8 *name, i32 flags, ...);
i32 close(i32 descriptor);
i32 rattle_errno(void);
void rattle_set_errno(i32 error);
i64 rattle_arg(u64 index, u8 *at, u64 room);
i64 rattle_env(const u8 *name, u8 *at, u64 room);
i64 rattle_env_at(u64 index, u8 *at, u64 room);
u64 __sysv_signal(i32 signal, u64 handler);
const u32 *__x86_get_cpuid_feature_leaf(u32 leaf);

/* wide.c: what LLVM calls for integers of 128 bits */
typedef __int128 i128;
typedef unsigned __int128 u128;
i128 __multi3(i128 a, i128 b);
i128 __ashlti3(i128 a, i32 by);
i128 __lshrti3(i128 a, i32 by);
u128 __udivti3(u128 a, u128 b);
