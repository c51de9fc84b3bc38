/* tests/bindings calls the library by this program from several threads. Each argument is a file with a text. One
   thread makes each call for each text. Then eight threads make 200 calls each, at the same time. The program fails if
   an answer differs from that of the one thread. */
#include "wat.h"
#include <pthread.h>
#include <stdio.h>
#include <stdlib.h>
#include <string.h>

enum { THREADS = 8, CALLS = 200, FUNCTIONS = 6, SPACE = 64, ROOM = 1 << 14, MOST = 1 << 20 };

typedef struct {
    uint8_t *bytes;
    size_t length;
} text;

/* What a call returns and writes. The rest is 0. */
typedef struct {
    int32_t status;
    size_t needed, count;
    wat_fault faults[SPACE];
    uint8_t said[ROOM];
} answer;

static text *texts;
static answer *answers;
static size_t jobs;
static pthread_barrier_t start;

static void *allocate(size_t count, size_t size) {
    void *it = calloc(count, size);
    if (!it) exit(2);
    return it;
}

static int32_t call(size_t function, const uint8_t *bytes, size_t length, answer *to) {
    switch (function) {
    case 0: return wat_check(bytes, length, to->said, ROOM, &to->needed);
    case 1: return wat_list(bytes, length, to->said, ROOM, &to->needed);
    case 2: return wat_print(bytes, length, true, to->said, ROOM, &to->needed);
    case 3: return wat_format(bytes, length, to->said, ROOM, &to->needed);
    case 4: return wat_check_named(bytes, length, bytes, length, to->said, ROOM, &to->needed);
    default: return wat_faults(bytes, length, to->faults, SPACE, &to->count, to->said, ROOM, &to->needed);
    }
}

static void do_job(size_t job, answer *to) {
    const text *it = &texts[job / FUNCTIONS];
    memset(to, 0, sizeof *to);
    to->status = call(job % FUNCTIONS, it->bytes, it->length, to);
}

/* Makes the calls of one thread. Returns the number of answers that differ, as a pointer. */
static void *work(void *thread) {
    answer *found = allocate(1, sizeof *found);
    size_t first = (size_t)thread * CALLS, wrong = 0;
    pthread_barrier_wait(&start);
    for (size_t turn = first; turn < first + CALLS; turn++) {
        do_job(turn % jobs, found);
        if (memcmp(found, &answers[turn % jobs], sizeof *found)) wrong++;
    }
    free(found);
    return (void *)wrong;
}

static void read_text(const char *path, text *to) {
    FILE *file = fopen(path, "rb");
    if (!file) exit(2);
    to->bytes = allocate(MOST, 1);
    to->length = fread(to->bytes, 1, MOST, file);
    fclose(file);
}

int main(int words_count, char **words) {
    size_t count = (size_t)words_count - 1, wrong = 0;
    pthread_t threads[THREADS];
    jobs = count * FUNCTIONS;
    texts = allocate(count, sizeof *texts);
    answers = allocate(jobs, sizeof *answers);
    for (size_t it = 0; it < count; it++) read_text(words[it + 1], &texts[it]);
    for (size_t job = 0; job < jobs; job++) do_job(job, &answers[job]);
    pthread_barrier_init(&start, NULL, THREADS);
    for (size_t it = 0; it < THREADS; it++)
        if (pthread_create(&threads[it], NULL, work, (void *)it)) return 2;
    for (size_t it = 0; it < THREADS; it++) {
        void *found;
        pthread_join(threads[it], &found);
        wrong += (size_t)found;
    }
    printf("%d calls, %zu answers differ\n", THREADS * CALLS, wrong);
    return wrong != 0;
}
