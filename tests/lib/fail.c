// A library to be preloaded: the request for memory with the number $FAIL_ALLOC fails, counted from 1 over all threads,
// and the file $FAIL_NOTE is made then. No request fails if the number is 0 or none.

extern char *getenv(const char *name);
extern int open(const char *path, int flags, ...);
extern int close(int file);
extern int *__errno_location(void);
extern void *__libc_malloc(unsigned long size);
extern void *__libc_realloc(void *block, unsigned long size);

enum { UNKNOWN = -1, OUT_OF_MEMORY = 12, WRITE_AND_CREATE = 0101, OWN = 0600 };

static long failing = UNKNOWN, requests;

static long number(const char *word) {
    long value = 0;
    for (; word && *word; word++) value = value * 10 + (*word - '0');
    return value;
}

static int fails(void) {
    if (failing == UNKNOWN) failing = number(getenv("FAIL_ALLOC"));
    if (__atomic_add_fetch(&requests, 1, __ATOMIC_SEQ_CST) != failing) return 0;
    close(open(getenv("FAIL_NOTE"), WRITE_AND_CREATE, OWN));
    *__errno_location() = OUT_OF_MEMORY;
    return 1;
}

void *malloc(unsigned long size) { return fails() ? 0 : __libc_malloc(size); }

void *realloc(void *block, unsigned long size) { return fails() ? 0 : __libc_realloc(block, size); }
