/* A ticket lock with threads: each takes turns, and each turn appends a number to a list that all share.
 *
 *     ticket THREADS TURNS [BOXES]
 *
 * Each thread takes TURNS / THREADS turns. With BOXES a turn also changes six words in each of BOXES cache lines.
 * Prints the number of turns, the seconds, and millions of turns per second. */
#include <pthread.h>
#include <sched.h>
#include <stdatomic.h>
#include <stdio.h>
#include <stdlib.h>
#include <time.h>

struct line {
    _Alignas(64) unsigned long words[8];
};

static _Atomic unsigned long next_ticket;
static _Atomic unsigned long now_serving;
static unsigned long *list;
static unsigned long count;
static unsigned long turns_each;
static unsigned long boxes;
static struct line *box;

static void *take_turns(void *argument)
{
    unsigned long me = (unsigned long)argument;
    for (unsigned long turn = 0; turn < turns_each; turn++) {
        unsigned long ticket = atomic_fetch_add(&next_ticket, 1);
        while (atomic_load_explicit(&now_serving, memory_order_acquire) != ticket)
            sched_yield();
        list[count++] = me;
        for (unsigned long k = 0; k < boxes; k++)
            for (int word = 0; word < 6; word++)
                box[k].words[word] += me + turn;
        atomic_store_explicit(&now_serving, ticket + 1, memory_order_release);
    }
    return NULL;
}

int main(int argc, char **argv)
{
    if (argc < 3) {
        fprintf(stderr, "ticket THREADS TURNS [BOXES]\n");
        return 2;
    }
    unsigned long threads = strtoul(argv[1], NULL, 10);
    turns_each = strtoul(argv[2], NULL, 10) / threads;
    boxes = argc > 3 ? strtoul(argv[3], NULL, 10) : 0;
    list = malloc((turns_each * threads + 1) * sizeof *list);
    box = aligned_alloc(64, (boxes + 1) * sizeof *box);
    pthread_t *thread = malloc(threads * sizeof *thread);
    if (!list || !box || !thread)
        return 3;
    struct timespec begun, ended;
    clock_gettime(CLOCK_MONOTONIC, &begun);
    for (unsigned long k = 0; k < threads; k++)
        if (pthread_create(&thread[k], NULL, take_turns, (void *)(k + 1)))
            return 3;
    for (unsigned long k = 0; k < threads; k++)
        pthread_join(thread[k], NULL);
    clock_gettime(CLOCK_MONOTONIC, &ended);
    double seconds = (ended.tv_sec - begun.tv_sec) + (ended.tv_nsec - begun.tv_nsec) / 1e9;
    printf("%lu turns, %.3f s, %.2f million turns per second\n", count, seconds, count / seconds / 1e6);
    return 0;
}
