/*
 * Preloaded by gate/refusals/refused.py over a built test: counts the requests between the two lines "== .." that the test writes on its
 * standard output, those for memory or, where REFUSE_WHAT is `starts`, the starts of threads, and refuses those from number
 * REFUSE_FIRST to REFUSE_LAST. At the end it writes five numbers to the file descriptor REFUSE_REPORT: the requests, how many were
 * refused, how many blocks more the program had after the call than before it, how many it still had when it ended, and how many bytes
 * the call asked for. Blocks that the C library asks for itself, as for a thread, count as requests for memory alone.
 *
 * It includes nothing, so that the kit's compiler is enough. For x86-64 Linux with glibc.
 */
typedef unsigned long size_t;
typedef long ssize_t;

#define NULL ((void *)0)
#define EAGAIN 11
#define ENOMEM 12
#define RTLD_NEXT ((void *)-1l)
#define STANDARD_OUTPUT 1
#define SYS_WRITE 1
#define SYS_EXIT_GROUP 231
#define AT_PHDR 3
#define AT_PHNUM 5
#define PT_LOAD 1
#define PT_PHDR 6

/* A program header of an ELF file of 64 bits. */
struct part {
    unsigned int type, flags;
    unsigned long offset, address, physical, size_in_file, size, align;
};

extern void *__libc_malloc(size_t);
extern void *__libc_calloc(size_t, size_t);
extern void *__libc_realloc(void *, size_t);
extern void *__libc_memalign(size_t, size_t);
extern void __libc_free(void *);
extern int *__errno_location(void);
extern unsigned long getauxval(unsigned long);
extern char *getenv(const char *);
extern void *dlsym(void *, const char *);
extern long atol(const char *);
extern int dprintf(int, const char *, ...);
extern int memcmp(const void *, const void *, size_t);
extern size_t strlen(const char *);
extern long syscall(long, ...);

/* What is asked for: memory, or the start of a thread. */
enum kind { MEMORY, START };

typedef int starter(unsigned long *, const void *, void *(*)(void *), void *);

static _Atomic int calling;
static _Atomic long requests, refused, blocks, bytes;
static long blocks_before, blocks_after;
static long refuse_first, refuse_last;
static enum kind refuse_what;
static starter *start_thread;
static unsigned long program_start, program_end;

static long number(const char *name) {
    const char *text = getenv(name);
    return text ? atol(text) : 0;
}

/* Where the program itself lies. */
static void find_program(void) {
    const struct part *parts = (const struct part *)getauxval(AT_PHDR);
    unsigned long count = getauxval(AT_PHNUM), moved = 0;
    for (unsigned long at = 0; at < count; at++)
        if (parts[at].type == PT_PHDR)
            moved = (unsigned long)parts - parts[at].address;
    program_start = -1ul;
    for (unsigned long at = 0; at < count; at++) {
        unsigned long start = moved + parts[at].address;
        if (parts[at].type != PT_LOAD)
            continue;
        if (start < program_start)
            program_start = start;
        if (start + parts[at].size > program_end)
            program_end = start + parts[at].size;
    }
}

static int is(const char *text, const char *word) {
    return text && strlen(text) == strlen(word) && memcmp(text, word, strlen(word)) == 0;
}

__attribute__((constructor)) static void begin(void) {
    find_program();
    start_thread = (starter *)dlsym(RTLD_NEXT, "pthread_create");
    refuse_what = is(getenv("REFUSE_WHAT"), "starts") ? START : MEMORY;
    refuse_first = number("REFUSE_FIRST");
    refuse_last = number("REFUSE_LAST");
}

/* Writes the five numbers. */
static void report(void) {
    dprintf((int)number("REFUSE_REPORT"), "%ld %ld %ld %ld %ld\n", (long)requests, (long)refused, blocks_after - blocks_before,
            (long)blocks, (long)bytes);
}

/* How a built program ends that can start threads. */
__attribute__((noreturn)) void _exit(int status) {
    report();
    for (;;)
        syscall(SYS_EXIT_GROUP, status);
}

/* How another one ends: the C library's `exit`, whose own `_exit` isn't the one above, comes by here. */
__attribute__((destructor)) static void end(void) {
    report();
}

/* Counts a request, and tells whether it is refused. */
static int refuses(enum kind what) {
    if (!calling || what != refuse_what)
        return 0;
    long at = ++requests;
    if (at < refuse_first || at > refuse_last)
        return 0;
    refused++;
    return 1;
}

static int refuses_memory(void) {
    if (!refuses(MEMORY))
        return 0;
    *__errno_location() = ENOMEM;
    return 1;
}

/* Whether the code at this address is the program's. */
static int is_program(void *caller) {
    unsigned long at = (unsigned long)caller;
    return at >= program_start && at < program_end;
}

/* Notes a block that the code at this address got (1) or gave back (-1). */
static void note(void *caller, long change) {
    if (is_program(caller))
        blocks += change;
}

/* Notes the bytes that the code at this address asked for and got. */
static void note_bytes(void *caller, size_t size) {
    if (calling && is_program(caller))
        bytes += (long)size;
}

static void *noted(void *caller, void *block, size_t size) {
    if (block) {
        note(caller, 1);
        note_bytes(caller, size);
    }
    return block;
}

void *malloc(size_t size) {
    return refuses_memory() ? NULL : noted(__builtin_return_address(0), __libc_malloc(size), size);
}

void *calloc(size_t count, size_t size) {
    return refuses_memory() ? NULL : noted(__builtin_return_address(0), __libc_calloc(count, size), count * size);
}

void *realloc(void *old, size_t size) {
    if (refuses_memory())
        return NULL;
    void *block = __libc_realloc(old, size);
    if (old && block)
        note_bytes(__builtin_return_address(0), size);
    return old ? block : noted(__builtin_return_address(0), block, size);
}

void *aligned_alloc(size_t align, size_t size) {
    return refuses_memory() ? NULL : noted(__builtin_return_address(0), __libc_memalign(align, size), size);
}

void *memalign(size_t align, size_t size) {
    return refuses_memory() ? NULL : noted(__builtin_return_address(0), __libc_memalign(align, size), size);
}

int posix_memalign(void **block, size_t align, size_t size) {
    void *got = refuses_memory() ? NULL : noted(__builtin_return_address(0), __libc_memalign(align, size), size);
    if (!got)
        return ENOMEM;
    *block = got;
    return 0;
}

void free(void *block) {
    if (block)
        note(__builtin_return_address(0), -1);
    __libc_free(block);
}

int pthread_create(unsigned long *thread, const void *how, void *(*run)(void *), void *with) {
    return refuses(START) ? EAGAIN : start_thread(thread, how, run, with);
}

static int begins(const char *text, size_t length, const char *word) {
    return length >= strlen(word) && memcmp(text, word, strlen(word)) == 0;
}

/* The two names under which a built program writes. */
ssize_t __write(int file, const void *bytes, size_t length) {
    if (file == STANDARD_OUTPUT && calling && begins(bytes, length, "== ")) {
        blocks_after = blocks;
        calling = 0;
    }
    ssize_t taken = syscall(SYS_WRITE, file, bytes, length);
    if (file == STANDARD_OUTPUT && !calling && begins(bytes, length, "== call")) {
        blocks_before = blocks;
        calling = 1;
    }
    return taken;
}

ssize_t write(int file, const void *bytes, size_t length) {
    return __write(file, bytes, length);
}
