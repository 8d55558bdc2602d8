// What the program's module asks of its host, in place of the C library, for a WebAssembly page: a heap, the words, one
// folder of files that are only read, two streams, and threads of which none can be started. The host is core.js.
typedef unsigned long long u64;
typedef long long i64;
typedef unsigned char u8;
typedef unsigned __int128 u128;
typedef __int128 i128;

#define HOST(name) __attribute__((import_module("host"), import_name(#name)))
HOST(arg) extern int host_arg(int i, u8 *to, u64 room); // its length; -1: there is none, -2: no room
HOST(open) extern int host_open(const u8 *path);        // a descriptor, or -errno
HOST(read) extern int host_read(int fd, u8 *to, u64 n); // how many bytes, or -errno
HOST(write) extern int host_write(int fd, const u8 *from, u64 n);
HOST(exit) extern void host_exit(int status) __attribute__((noreturn));

static int errno_;
void rattle_set_errno(int e) { errno_ = e; }
int rattle_errno(void) { return errno_; }

// ---- the heap: four classes of size in each doubling, a list of free blocks for each, and new memory from the end

extern u8 __heap_base;
enum { CLASSES = 240, HEAD = 16 };
struct block { u64 klass; struct block *next; }; // HEAD bytes before what is handed out; `next` only while it is free
static struct block *empty[CLASSES];
static u64 top, limit;

// The class of so many bytes, at least 1.
static unsigned class_of(u64 n) {
    u64 units = (n + 15) >> 4;
    if (units <= 4) return (unsigned)units - 1;
    unsigned s = 63 - (unsigned)__builtin_clzll(units - 1); // 2^s <= units - 1 < 2^(s + 1)
    return (s - 1) * 4 + (unsigned)((units - 1) >> (s - 2) & 3);
}

// The bytes of a block of the class.
static u64 size_of(unsigned c) {
    if (c < 4) return (u64)(c + 1) << 4;
    unsigned s = c / 4 + 1, quarter = c & 3;
    return ((u64)(4 + quarter + 1) << (s - 2)) << 4;
}

// Whether there is memory up to `end`, of which more is asked for by an eighth.
static int up_to(u64 end) {
    if (end <= limit) return 1;
    u64 need = (end - limit + 65535) >> 16;
    u64 ask = need < limit >> 19 ? limit >> 19 : need;
    if (ask < 16) ask = 16;
    u64 had = __builtin_wasm_memory_grow(0, ask);
    if (had == (u64)-1) {
        ask = need;
        had = __builtin_wasm_memory_grow(0, ask);
    }
    if (had == (u64)-1) return 0;
    limit += ask << 16;
    return 1;
}

void *malloc(u64 n) {
    if (n > 1ull << 31) return 0;
    unsigned c = class_of(n ? n : 1);
    struct block *b = empty[c];
    if (b) {
        empty[c] = b->next;
        return (u8 *)b + HEAD;
    }
    if (!top) {
        top = ((u64)&__heap_base + 15) & ~15ull;
        limit = __builtin_wasm_memory_size(0) << 16;
    }
    u64 end = top + HEAD + size_of(c);
    if (!up_to(end)) return 0;
    b = (struct block *)top;
    top = end;
    b->klass = c;
    return (u8 *)b + HEAD;
}

void free(void *p) {
    if (!p) return;
    struct block *b = (struct block *)((u8 *)p - HEAD);
    if ((u64)p + size_of(b->klass) == top) {
        top = (u64)b;
        return;
    }
    b->next = empty[b->klass];
    empty[b->klass] = b;
}

// A block of n bytes with the first `kept` of p; the last block of the heap grows where it is.
static void *resize(void *p, u64 kept, u64 n) {
    if (n > 1ull << 31) return 0;
    struct block *b = (struct block *)((u8 *)p - HEAD);
    u64 has = size_of(b->klass);
    if (n <= has && n * 4 >= has) return p;
    if (n > has && (u64)p + has == top) {
        unsigned c = class_of(n);
        if (!up_to((u64)p + size_of(c))) return 0;
        b->klass = c;
        top = (u64)p + size_of(c);
        return p;
    }
    u8 *q = malloc(n);
    if (!q) return 0;
    u64 least = kept < has ? kept : has;
    __builtin_memcpy(q, p, least < n ? least : n);
    free(p);
    return q;
}

static u8 nothing[16] __attribute__((aligned(16))); // an address where there is no memory
struct tried { u64 ok, p; };
struct tried rattle_alloc(u64 n, u64 align) {
    u8 *p = malloc(n ? n : align);
    return p ? (struct tried){1, (u64)p} : (struct tried){0, (u64)nothing};
}
struct tried rattle_realloc(void *p, u64 kept, u64 n, u64 align) {
    u8 *q = resize(p, kept, n ? n : align);
    return q ? (struct tried){1, (u64)q} : (struct tried){0, (u64)nothing};
}
void rattle_dealloc(void *p) { free(p); }

// ---- words, files, streams, the end

static i64 answer(int r) {
    if (r >= 0) return r;
    errno_ = -r;
    return -1;
}
static u64 at_most(u64 n) { return n > 1 << 30 ? 1 << 30 : n; }

i64 rattle_arg(u64 i, u8 *to, u64 room) { return host_arg(i > 1 << 20 ? 1 << 20 : (int)i, to, at_most(room)); }
i64 rattle_env(const u8 *name, u8 *to, u64 room) { return -1; }
i64 rattle_env_at(u64 i, u8 *to, u64 room) { return -1; }
int open(const u8 *path, int flags, ...) { return (int)answer(flags & 3 ? -30 : host_open(path)); } // EROFS
i64 read(int fd, u8 *to, u64 n) { return answer(host_read(fd, to, at_most(n))); }
i64 write(int fd, const u8 *from, u64 n) { return answer(host_write(fd, from, at_most(n))); }
i64 __write(int fd, const u8 *from, u64 n) { return write(fd, from, n); }
int close(int fd) { return 0; }
void _exit(int status) { host_exit(status); }
void abort(void) { __builtin_trap(); }
i64 __sysv_signal(int n, i64 what) { return 0; }

// ---- threads: none can be started (EAGAIN), as on a system that has no more, and the program goes on without them

int pthread_attr_init(void *a) { return 0; }
int pthread_attr_setguardsize(void *a, u64 n) { return 0; }
int pthread_attr_setstacksize(void *a, u64 n) { return 0; }
int pthread_attr_destroy(void *a) { return 0; }
int pthread_create(void *t, const void *a, void *(*f)(void *), void *x) { return 11; }
u64 pthread_self(void) { return 1; }
int pthread_detach(u64 t) { return 0; }
int pthread_join(u64 t, void **r) { __builtin_trap(); }
int sched_yield(void) { return 0; }
// one processor, of which the system does not say whether this thread may run on it
i64 sysconf(int what) { return 1; }
int sched_getaffinity(int thread, u64 size, void *mask) { return -1; }
// a futex: to wake somebody wakes nobody, and to wait is refused with EAGAIN
i64 syscall(i64 number, void *p, i64 what, i64 value, void *q, ...) {
    errno_ = 11;
    return (what & 127) == 1 ? 0 : -1;
}

// As it starts, the program asks for what the processor has; WebAssembly has code for all of it.
static unsigned leaf[16] = {~0u, ~0u, ~0u, ~0u, ~0u, ~0u, ~0u, ~0u, ~0u, ~0u, ~0u, ~0u, ~0u, ~0u, ~0u, ~0u};
const void *__x86_get_cpuid_feature_leaf(unsigned n) { return leaf; }

// ---- numbers of 128 bits, which clang calls by these names

i128 __multi3(i128 a, i128 b) {
    u64 al = (u64)a, bl = (u64)b, ah = (u64)((u128)a >> 64), bh = (u64)((u128)b >> 64);
    u64 a0 = (unsigned)al, a1 = al >> 32, b0 = (unsigned)bl, b1 = bl >> 32;
    u64 p00 = a0 * b0, p01 = a0 * b1, p10 = a1 * b0, p11 = a1 * b1;
    u64 middle = (p00 >> 32) + (unsigned)p01 + (unsigned)p10;
    u64 low = middle << 32 | (unsigned)p00;
    u64 high = p11 + (p01 >> 32) + (p10 >> 32) + (middle >> 32) + al * bh + ah * bl;
    return (i128)((u128)high << 64 | low);
}

static u128 divide(u128 n, u128 d, u128 *rest) {
    u128 q = 0, r = 0;
    for (int i = 127; i >= 0; i--) {
        int is_over = r >> 127; // then the doubled rest has 129 bits, and is above d
        r = r << 1 | (n >> i & 1);
        if (is_over || r >= d) {
            r -= d;
            q |= (u128)1 << i;
        }
    }
    *rest = r;
    return q;
}
static u128 size(i128 a) { return a < 0 ? -(u128)a : (u128)a; }
u128 __udivti3(u128 a, u128 b) { u128 r; return divide(a, b, &r); }
u128 __umodti3(u128 a, u128 b) { u128 r; divide(a, b, &r); return r; }
i128 __divti3(i128 a, i128 b) {
    u128 r, q = divide(size(a), size(b), &r);
    return (i128)((a < 0) != (b < 0) ? -q : q);
}
i128 __modti3(i128 a, i128 b) {
    u128 r;
    divide(size(a), size(b), &r);
    return (i128)(a < 0 ? -r : r);
}

union halves { u128 all; struct { u64 low, high; } of; };
u128 __ashlti3(u128 a, int n) {
    union halves x = {a}, r;
    if (!n) return a;
    r.of.low = n & 64 ? 0 : x.of.low << n;
    r.of.high = n & 64 ? x.of.low << (n & 63) : x.of.high << n | x.of.low >> (64 - n);
    return r.all;
}
u128 __lshrti3(u128 a, int n) {
    union halves x = {a}, r;
    if (!n) return a;
    r.of.high = n & 64 ? 0 : x.of.high >> n;
    r.of.low = n & 64 ? x.of.high >> (n & 63) : x.of.low >> n | x.of.high << (64 - n);
    return r.all;
}
i128 __ashrti3(i128 a, int n) {
    union halves x = {(u128)a}, r;
    if (!n) return a;
    r.of.high = n & 64 ? (u64)((i64)x.of.high >> 63) : (u64)((i64)x.of.high >> n);
    r.of.low = n & 64 ? (u64)((i64)x.of.high >> (n & 63)) : x.of.low >> n | x.of.high << (64 - n);
    return (i128)r.all;
}
