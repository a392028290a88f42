/* The longest path of a run: how long it takes by the clock where every thread has a free processor at once.

   cc -O2 -shared -fPIC -o longest_path.so longest_path.c
   LD_PRELOAD=./longest_path.so ./transyt_cli run 4 < town.deck > /dev/null

   On standard error it writes the seconds of the longest path, the processor seconds of all threads and the number of
   threads. A thread's path begins with that of the thread that made it, and START; it grows with its own processor time;
   at a join the longer of the two paths goes on. So a host that takes processors away, or other work beside, doesn't
   count. START is the time that a thread takes to begin on a free processor, 30 microseconds on the machines seen. */
#define _GNU_SOURCE
#include <dlfcn.h>
#include <pthread.h>
#include <stdio.h>
#include <stdlib.h>
#include <sys/syscall.h>
#include <time.h>
#include <unistd.h>

enum { MOST_THREADS = 64 };
static const double START = 30e-6;

struct thread {
    void *(*run)(void *);
    void *argument;
    pthread_t name;
    double begun, ended; /* the path at both */
};

static struct thread *threads[MOST_THREADS];
static pthread_mutex_t lock = PTHREAD_MUTEX_INITIALIZER;
static int thread_count;
static __thread double path_before, time_before;

static double seconds(clockid_t clock)
{
    struct timespec t;
    clock_gettime(clock, &t);
    return t.tv_sec + t.tv_nsec / 1e9;
}

static double path(void) { return path_before + seconds(CLOCK_THREAD_CPUTIME_ID) - time_before; }

static void go_on_from(double other)
{
    path_before = other;
    time_before = seconds(CLOCK_THREAD_CPUTIME_ID);
}

static void *run(void *given)
{
    struct thread *it = given;
    go_on_from(it->begun);
    void *result = it->run(it->argument);
    it->ended = path();
    return result;
}

int pthread_create(pthread_t *name, const pthread_attr_t *how, void *(*start)(void *), void *argument)
{
    int (*create)(pthread_t *, const pthread_attr_t *, void *(*)(void *), void *) = dlsym(RTLD_NEXT, "pthread_create");
    struct thread *it = malloc(sizeof *it);
    *it = (struct thread){start, argument, 0, path() + START, 0};
    int status = create(name, how, run, it);
    it->name = *name;
    pthread_mutex_lock(&lock);
    thread_count++;
    for (int i = 0; i < MOST_THREADS; i++)
        if (!threads[i]) {
            threads[i] = it;
            break;
        }
    pthread_mutex_unlock(&lock);
    return status;
}

int pthread_join(pthread_t name, void **result)
{
    int (*join)(pthread_t, void **) = dlsym(RTLD_NEXT, "pthread_join");
    int status = join(name, result);
    struct thread *it = NULL;
    pthread_mutex_lock(&lock);
    for (int i = 0; i < MOST_THREADS && !it; i++)
        if (threads[i] && pthread_equal(threads[i]->name, name)) {
            it = threads[i];
            threads[i] = NULL;
        }
    pthread_mutex_unlock(&lock);
    if (it && it->ended > path()) go_on_from(it->ended);
    free(it);
    return status;
}

void _exit(int status)
{
    fprintf(stderr, "longest path %.3f s, processor %.3f s, %d threads\n", path(), seconds(CLOCK_PROCESS_CPUTIME_ID), thread_count);
    syscall(SYS_exit_group, status);
    __builtin_unreachable();
}
