/* Refuses one request for memory, for tests/refuse.py: that with the number REFUSE of the thread with the number THREAD. The first
   thread is 0, and those that it starts are 1, 2 and so on. Says so by a byte on file REFUSE_FILE. A run takes a minute at most.

   A thread that is started waits until as many are there as THREADS says, for 20 ms at most, so that no worker has done all
   before the others come. */
#define _GNU_SOURCE
#include <dlfcn.h>
#include <errno.h>
#include <pthread.h>
#include <stdlib.h>
#include <unistd.h>

struct start {
    void *(*run)(void *);
    void *with;
    int number;
};

static struct start starts[64];
static int started, arrived;
static __thread int own __attribute__((tls_model("initial-exec")));
static __thread long requests __attribute__((tls_model("initial-exec")));
static long wanted, thread, file, threads;

static long number_of(const char *name) {
    const char *text = getenv(name);
    return text == NULL ? 0 : atol(text);
}

__attribute__((constructor)) static void begin(void) {
    wanted = number_of("REFUSE");
    thread = number_of("THREAD");
    file = number_of("REFUSE_FILE");
    threads = number_of("THREADS");
    requests = 0;
    alarm(60);
}

static int refuses(void) {
    if (++requests != wanted || own != thread)
        return 0;
    if (file != 0 && write((int)file, "x", 1) != 1)
        abort();
    errno = ENOMEM;
    return 1;
}

void *malloc(size_t size) {
    static void *(*next)(size_t);
    if (next == NULL)
        next = dlsym(RTLD_NEXT, "malloc");
    return refuses() ? NULL : next(size);
}

void *calloc(size_t count, size_t size) {
    static void *(*next)(size_t, size_t);
    if (next == NULL)
        next = dlsym(RTLD_NEXT, "calloc");
    return refuses() ? NULL : next(count, size);
}

void *realloc(void *block, size_t size) {
    static void *(*next)(void *, size_t);
    if (next == NULL)
        next = dlsym(RTLD_NEXT, "realloc");
    return refuses() ? NULL : next(block, size);
}

static void *run_start(void *at) {
    struct start *start = at;
    own = start->number;
    __atomic_add_fetch(&arrived, 1, __ATOMIC_SEQ_CST);
    for (int turn = 0; turn < 200 && __atomic_load_n(&arrived, __ATOMIC_SEQ_CST) < threads; turn++)
        usleep(100);
    return start->run(start->with);
}

int pthread_create(pthread_t *id, const pthread_attr_t *how, void *(*run)(void *), void *with) {
    int (*next)(pthread_t *, const pthread_attr_t *, void *(*)(void *), void *) = dlsym(RTLD_NEXT, "pthread_create");
    if (started == 63)
        abort();
    struct start *start = &starts[started++];
    *start = (struct start){run, with, started};
    return next(id, how, run_start, start);
}
