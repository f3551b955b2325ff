// The functions of C that the program calls, in a module of WebAssembly: the heap, errno, statx, and arithmetic of 128
// bits. Arguments, streams and files are the host's (host.js): each of its functions answers a number, or minus an errno
// of Linux. It is compiled without a C library, for addresses of 64 bits, of which the upper half is zero.
typedef unsigned char u8;
typedef unsigned short u16;
typedef unsigned int u32;
typedef unsigned long u64;
typedef int i32;
typedef long i64;
typedef unsigned __int128 u128;

#define HOST(name) __attribute__((import_module("host"), import_name(#name)))
HOST(arg) i64 host_arg(u64 i, void *bytes, u64 room);
HOST(open) i64 host_open(const char *path, i32 flags);
HOST(close) i64 host_close(i32 fd);
HOST(read) i64 host_read(i32 fd, void *bytes, u64 count);
HOST(write) i64 host_write(i32 fd, const void *bytes, u64 count);
HOST(stat) i64 host_stat(i32 fd, const char *path, u64 *mode_size_number);
HOST(truncate) i64 host_truncate(i32 fd, i64 length);
HOST(unlink) i64 host_unlink(const char *path);
HOST(rename) i64 host_rename(const char *from, const char *to);
HOST(realpath) i64 host_realpath(const char *path, char *resolved);

#define ENOTTY 25

// errno

static i32 errno_now;

i32 rattle_errno(void) { return errno_now; }

void rattle_set_errno(i32 error) { errno_now = error; }

static i64 answer(i64 answered) {
    if (answered >= 0) return answered;
    errno_now = (i32)-answered;
    return -1;
}

// Arguments, streams and files

i64 rattle_arg(u64 i, void *bytes, u64 room) { return host_arg(i, bytes, room); }

i32 open(const char *path, i32 flags, ...) { return (i32)answer(host_open(path, flags)); }

i32 close(i32 fd) { return (i32)answer(host_close(fd)); }

i64 read(i32 fd, void *bytes, u64 count) { return answer(host_read(fd, bytes, count)); }

i64 write(i32 fd, const void *bytes, u64 count) { return answer(host_write(fd, bytes, count)); }

i64 __write(i32 fd, const void *bytes, u64 count) { return write(fd, bytes, count); }

i32 ftruncate(i32 fd, i64 length) { return (i32)answer(host_truncate(fd, length)); }

i32 unlink(const char *path) { return (i32)answer(host_unlink(path)); }

i32 rename(const char *from, const char *to) { return (i32)answer(host_rename(from, to)); }

char *realpath(const char *path, char *resolved) { return answer(host_realpath(path, resolved)) < 0 ? 0 : resolved; }

// struct statx of Linux has 256 bytes
typedef struct {
    u32 mask, blksize;
    u64 attributes;
    u32 nlink, uid, gid;
    u16 mode, spare;
    u64 ino, size, more[26];
} Statx;
_Static_assert(sizeof(Statx) == 256 && __builtin_offsetof(Statx, mode) == 28 && __builtin_offsetof(Statx, size) == 40,
               "the layout of Linux");
#define STATX_BASIC_STATS 0x7ff

i32 statx(i32 fd, const char *path, i32 flags, u32 mask, Statx *found) {
    u64 is[3];
    if (answer(host_stat(fd, path, is)) < 0) return -1;
    __builtin_memset(found, 0, sizeof *found);
    found->mask = STATX_BASIC_STATS;
    found->blksize = 4096;
    found->nlink = 1;
    found->mode = (u16)is[0];
    found->size = is[1];
    found->ino = is[2];
    return 0;
}

// No stream is a terminal. There is no environment, and nothing to wait for, to own or to lock.

i32 isatty(i32 fd) {
    errno_now = ENOTTY;
    return 0;
}

i64 rattle_env(const char *name, void *bytes, u64 room) { return -1; }

i64 rattle_env_at(u64 i, void *bytes, u64 room) { return -1; }

i32 chown(const char *path, u32 owner, u32 group) { return 0; }

i32 fchmod(i32 fd, u32 mode) { return 0; }

i32 fsync(i32 fd) { return 0; }

i32 fdatasync(i32 fd) { return 0; }

i32 flock(i32 fd, i32 operation) { return 0; }

i64 __sysv_signal(i32 number, i64 action) { return 0; }

// A program for x86-64-v2 asks, as it starts, whether the processor has what that means. Here there is no instruction of
// x86, so the answer is yes.
static const u32 all_features[8] = {~0u, ~0u, ~0u, ~0u, ~0u, ~0u, ~0u, ~0u};

const void *__x86_get_cpuid_feature_leaf(u32 leaf) { return all_features; }

// The heap, by two-level segregated fit. Its blocks lie one after the other up to its end, each with a head of 16 bytes.
// No two that are free lie side by side, and the last is taken. Those that are free stand in lists by size: one for what
// lies between a power of two and half as much again, and one from there to the next power.

#define PAGE_BITS 16
#define MOST_MEMORY (1ul << 32)
#define LEAST_SIZE_BITS 5

typedef struct Block {
    // sizes of the block before it and of it, with their heads
    u32 size_before, size;
    u64 is_free;
    // of one that is free, in its list
    struct Block *next, *previous;
} Block;
#define HEAD_SIZE 16
_Static_assert(__builtin_offsetof(Block, next) == HEAD_SIZE && sizeof(Block) == 1 << LEAST_SIZE_BITS, "the least block");

extern u8 __heap_base;
// A head at the end, of no block, and the lists; a bit for each that holds any.
static Block *end;
static Block *lists[2 * (32 - LEAST_SIZE_BITS)];
static u64 filled;

static Block *at(void *place, i64 further) { return (Block *)((u8 *)place + further); }

static Block *block_after(Block *block) { return at(block, block->size); }

// The size of a block for so many bytes.
static u64 size_for(u64 bytes) { return bytes <= 16 ? 1 << LEAST_SIZE_BITS : (bytes + HEAD_SIZE + 15) & ~15ul; }

// The number of the list for blocks of a size.
static u64 list_of(u64 size) {
    u64 bits = 63 - (u64)__builtin_clzl(size);
    return 2 * (bits - LEAST_SIZE_BITS) + (size >> (bits - 1) & 1);
}

static void give_size(Block *block, u64 size) {
    block->size = (u32)size;
    block_after(block)->size_before = (u32)size;
}

static void enlist(Block *block) {
    u64 list = list_of(block->size);
    block->is_free = 1;
    block->previous = 0;
    block->next = lists[list];
    if (block->next) block->next->previous = block;
    lists[list] = block;
    filled |= 1ul << list;
}

static void unlist(Block *block) {
    u64 list = list_of(block->size);
    block->is_free = 0;
    if (block->next) block->next->previous = block->previous;
    if (block->previous) {
        block->previous->next = block->next;
    } else if (!(lists[list] = block->next)) {
        filled &= ~(1ul << list);
    }
}

static u64 memory_size(void) { return __builtin_wasm_memory_size(0) << PAGE_BITS; }

// Asks for so many bytes more. What memory.grow answers is not read: where it is refused in a module that was lowered to
// 32 bits, that is 2^32 - 1.
static void grow(u64 bytes) { __builtin_wasm_memory_grow(0, (bytes + (1ul << PAGE_BITS) - 1) >> PAGE_BITS); }

// Moves the end so many bytes up, and returns whether there is memory for that.
static i32 move_end(u64 bytes) {
    u64 needed = (u64)end + bytes + HEAD_SIZE, size = memory_size();
    if (needed > MOST_MEMORY) return 0;
    // (more than is needed, at first, so that this is seldom done)
    if (needed > size) grow(needed - size > size / 4 ? needed - size : size / 4);
    if (needed > memory_size()) grow(needed - memory_size());
    if (needed > memory_size()) return 0;
    end = at(end, (i64)bytes);
    end->is_free = 0;
    return 1;
}

static void give_back(Block *block) {
    Block *after = block_after(block), *before = at(block, -(i64)block->size_before);
    if (after->is_free) {
        unlist(after);
        give_size(block, block->size + after->size);
    }
    // (before the first lies none, and then that is the block itself)
    if (before->is_free) {
        unlist(before);
        give_size(before, before->size + block->size);
        block = before;
    }
    if (block_after(block) == end) {
        end = block;
        end->is_free = 0;
    } else {
        enlist(block);
    }
}

// Gives back what a block has beyond a size.
static void cut(Block *block, u64 size) {
    u64 rest = block->size - size;
    if (rest < sizeof(Block)) return;
    give_size(block, size);
    give_size(block_after(block), rest);
    give_back(block_after(block));
}

// A free block that has a size: the first of its list, or any of a list in which all do.
static Block *free_one(u64 size) {
    u64 list = list_of(size);
    if (lists[list] && lists[list]->size >= size) return lists[list];
    u64 larger = filled & ~0ul << (list + 1);
    return larger ? lists[__builtin_ctzl(larger)] : 0;
}

static u8 *take(u64 bytes) {
    if (bytes > MOST_MEMORY - (1ul << PAGE_BITS)) return 0;
    if (!end) end = at(&__heap_base, -(i64)&__heap_base & 15), move_end(0);
    u64 size = size_for(bytes);
    Block *block = free_one(size);
    if (block) {
        unlist(block);
        cut(block, size);
    } else {
        block = end;
        if (!move_end(size)) return 0;
        give_size(block, size);
    }
    return (u8 *)block + HEAD_SIZE;
}

// Makes a block as large as a size, if what lies after it allows that.
static void widen(Block *block, u64 size) {
    Block *after = block_after(block);
    if (size > block->size && after->is_free) {
        unlist(after);
        give_size(block, block->size + after->size);
        after = block_after(block);
    }
    if (size > block->size && after == end && move_end(size - block->size)) give_size(block, size);
    if (size < block->size) cut(block, size);
}

typedef struct {
    u64 is_taken;
    u8 *bytes;
} Taken;

static u8 nothing;

static Taken taken_or_not(u8 *bytes) { return bytes ? (Taken){1, bytes} : (Taken){0, &nothing}; }

Taken rattle_alloc(u64 bytes, u64 alignment) {
    if (alignment > HEAD_SIZE) __builtin_trap();
    return taken_or_not(take(bytes));
}

void rattle_dealloc(u8 *bytes) {
    if (bytes) give_back(at(bytes, -HEAD_SIZE));
}

Taken rattle_realloc(u8 *bytes, u64 kept, u64 wanted, u64 alignment) {
    if (wanted > MOST_MEMORY - (1ul << PAGE_BITS)) return taken_or_not(0);
    Block *block = at(bytes, -HEAD_SIZE);
    widen(block, size_for(wanted));
    if (block->size >= size_for(wanted)) return taken_or_not(bytes);
    u8 *moved = take(wanted);
    if (!moved) return taken_or_not(0);
    __builtin_memcpy(moved, bytes, block->size - HEAD_SIZE);
    give_back(block);
    return taken_or_not(moved);
}

// What functions that are to be small do by a call: they clear, or copy, so many bytes (retarget.py).

#define CLEARS(size) \
    void zero_##size(void *bytes) { __builtin_memset(bytes, 0, size); }
#define COPIES(size) \
    void copy_##size(void *to, const void *from) { __builtin_memcpy(to, from, size); }
CLEARS(5) CLEARS(6) CLEARS(7) CLEARS(12) CLEARS(16) CLEARS(24) CLEARS(31) CLEARS(32) CLEARS(40) CLEARS(48) CLEARS(56)
COPIES(5) COPIES(6) COPIES(7) COPIES(14) COPIES(16) COPIES(20) COPIES(24) COPIES(32) COPIES(40) COPIES(48) COPIES(56)

// 128 bits: products of halves, shifts, and quotients by shifts and differences.

typedef union {
    u128 all;
    struct {
        u64 low, high;
    } is;
} Halves;

u128 __multi3(u128 a, u128 b) {
    Halves x = {a}, y = {b}, product;
    u64 x0 = x.is.low & 0xffffffff, x1 = x.is.low >> 32, y0 = y.is.low & 0xffffffff, y1 = y.is.low >> 32;
    u64 low = x0 * y0, cross = x1 * y0, other = x0 * y1;
    u64 middle = (low >> 32) + (cross & 0xffffffff) + (other & 0xffffffff);
    product.is.low = (low & 0xffffffff) | middle << 32;
    product.is.high = x1 * y1 + (cross >> 32) + (other >> 32) + (middle >> 32);
    product.is.high += x.is.low * y.is.high + x.is.high * y.is.low;
    return product.all;
}

u128 __ashlti3(u128 a, i32 by) {
    Halves from = {a}, to;
    if (by == 0) return a;
    to.is.high = by >= 64 ? from.is.low << (by - 64) : from.is.high << by | from.is.low >> (64 - by);
    to.is.low = by >= 64 ? 0 : from.is.low << by;
    return to.all;
}

u128 __lshrti3(u128 a, i32 by) {
    Halves from = {a}, to;
    if (by == 0) return a;
    to.is.low = by >= 64 ? from.is.high >> (by - 64) : from.is.low >> by | from.is.high << (64 - by);
    to.is.high = by >= 64 ? 0 : from.is.high >> by;
    return to.all;
}

static u128 divide(u128 dividend, u128 divisor, u128 *rest) {
    u128 quotient = 0, left = 0;
    if (!(dividend >> 64) && !(divisor >> 64)) {
        *rest = (u64)dividend % (u64)divisor;
        return (u64)dividend / (u64)divisor;
    }
    for (i32 i = 127; i >= 0; i--) {
        u64 carried = (u64)(left >> 127);
        left = left << 1 | (dividend >> i & 1);
        if (carried || left >= divisor) {
            left -= divisor;
            quotient |= (u128)1 << i;
        }
    }
    *rest = left;
    return quotient;
}

u128 __udivti3(u128 dividend, u128 divisor) {
    u128 rest;
    return divide(dividend, divisor, &rest);
}

u128 __umodti3(u128 dividend, u128 divisor) {
    u128 rest;
    divide(dividend, divisor, &rest);
    return rest;
}
