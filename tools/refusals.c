/* Loaded before the C library, it refuses a call of malloc, calloc or realloc, where REFUSED_REQUEST has its number, or of pthread_create, where REFUSED_THREAD
   has it, and all later ones where there is REFUSED_REST. To file descriptor 9 it writes a line for each refusal. It takes no header, so that the kit's own
   compiler builds it. */

enum { EVENTS = 9, TRY_AGAIN = 11, NO_MEMORY = 12 };

extern void *__libc_malloc(unsigned long size);
extern void *__libc_calloc(unsigned long count, unsigned long size);
extern void *__libc_realloc(void *old, unsigned long size);
extern long write(int fd, const void *bytes, unsigned long length);
extern void *dlsym(void *handle, const char *name);
extern char *getenv(const char *name);
extern long atol(const char *text);
extern int *__errno_location(void);

static long requests, starts;

static int is_refused(long *calls, const char *which) {
    const char *first = getenv(which);
    long call = __atomic_add_fetch(calls, 1, __ATOMIC_SEQ_CST);
    if (!first || call < atol(first) || (call > atol(first) && !getenv("REFUSED_REST")))
        return 0;
    write(EVENTS, "refused\n", 8);
    *__errno_location() = NO_MEMORY;
    return 1;
}

void *malloc(unsigned long size) { return is_refused(&requests, "REFUSED_REQUEST") ? 0 : __libc_malloc(size); }

void *calloc(unsigned long count, unsigned long size) { return is_refused(&requests, "REFUSED_REQUEST") ? 0 : __libc_calloc(count, size); }

void *realloc(void *old, unsigned long size) { return is_refused(&requests, "REFUSED_REQUEST") ? 0 : __libc_realloc(old, size); }

int pthread_create(void *thread, const void *how, void *(*run)(void *), void *argument) {
    int (*create)(void *, const void *, void *(*)(void *), void *) = dlsym((void *)-1l, "pthread_create");
    return is_refused(&starts, "REFUSED_THREAD") ? TRY_AGAIN : create(thread, how, run, argument);
}
