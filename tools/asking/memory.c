/* The heap of asking, in place of the kit's own C code: it counts the requests for memory, the starts of threads, the bytes that were requested and the pieces of
   memory that are in use, and refuses requests and starts. */

enum { REQUESTS, STARTS, BYTES, LIVE, COUNTS };

enum { TRY_AGAIN = 11 };

/* It takes no header, so that the kit's own compiler builds it. */
extern void *malloc(unsigned long size);
extern void *realloc(void *old, unsigned long size);
extern void free(void *old);
/* The address sanitizer's, which else stands for pthread_create. */
extern int ___interceptor_pthread_create(void *thread, const void *how, void *(*run)(void *), void *argument);

struct tried {
    unsigned long is_given;
    void *at;
};

static unsigned long counts[COUNTS], from[COUNTS], to[COUNTS];

unsigned long asking_count(unsigned long which) { return __atomic_load_n(&counts[which], __ATOMIC_SEQ_CST); }

/* Refuses so many calls of a kind, after some that are not refused. */
void asking_refuse(unsigned long which, unsigned long after, unsigned long many) {
    from[which] = asking_count(which) + after;
    to[which] = from[which] + many;
}

static unsigned long add(int which, unsigned long more) { return __atomic_fetch_add(&counts[which], more, __ATOMIC_SEQ_CST); }

static int is_refused(int which) {
    unsigned long call = add(which, 1);
    return from[which] <= call && call < to[which];
}

struct tried rattle_alloc(unsigned long size, unsigned long align) {
    add(BYTES, size);
    void *at = is_refused(REQUESTS) ? 0 : malloc(size ? size : align);
    add(LIVE, at != 0);
    return (struct tried){at != 0, at ? at : (void *)4096};
}

struct tried rattle_realloc(void *old, unsigned long kept, unsigned long size, unsigned long align) {
    add(BYTES, size);
    void *at = is_refused(REQUESTS) ? 0 : realloc(old, size ? size : align);
    return (struct tried){at != 0, at ? at : (void *)4096};
}

void rattle_dealloc(void *at) {
    add(LIVE, -1);
    free(at);
}

int pthread_create(void *thread, const void *how, void *(*run)(void *), void *argument) {
    return is_refused(STARTS) ? TRY_AGAIN : ___interceptor_pthread_create(thread, how, run, argument);
}
