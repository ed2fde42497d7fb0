/*
 * Four threads write to one stream, a mutex round each call, while a fifth pulls its bytes into a file. The words are the
 * file and how many events each thread writes.
 */
#define _POSIX_C_SOURCE 200809L

#include <pthread.h>
#include <stdio.h>
#include <stdlib.h>
#include <time.h>
#include <uchar.h>

#include "tracepipe.h"

enum { WRITERS = 4 };

static tp_handle handle;
static pthread_mutex_t lock = PTHREAD_MUTEX_INITIALIZER;
static uint32_t tick;
static uint64_t events_each;
static uint64_t stamp; /* the clock, read under the lock, so that stamps rise in the stream */
static bool over;      /* under the lock: no thread writes any more */

static const uint16_t *units(const char16_t *text) { return (const uint16_t *)text; }

static void *write_events(void *thread) {
    for (uint64_t index = 0; index < events_each; index++) {
        pthread_mutex_lock(&lock);
        tp_event_head event = {.thread = (uint64_t)(uintptr_t)thread, .stamp = ++stamp, .event = tick};
        uint32_t code = tp_event(&handle, &event, NULL, 0, &index, sizeof index);
        pthread_mutex_unlock(&lock);
        if (code != TP_OK) exit(1);
    }
    return NULL;
}

/* Takes the lock for a copy of at most 64 KiB, and writes the file without it. */
static void *pump(void *file) {
    static uint8_t bytes[65536];
    for (bool last = false; !last;) {
        size_t count = 0;
        pthread_mutex_lock(&lock);
        last = over;
        uint32_t code = tp_pull(&handle, bytes, sizeof bytes, &count);
        pthread_mutex_unlock(&lock);
        if (code != TP_OK || fwrite(bytes, 1, count, file) != count) exit(1);
        if (!last && count < sizeof bytes) nanosleep(&(struct timespec){.tv_nsec = 1000000}, NULL);
    }
    return NULL;
}

static int end(FILE *file) {
    uint8_t bytes[65536];
    size_t count = 0;
    uint32_t code;
    do {
        code = tp_end(&handle, bytes, sizeof bytes, &count);
        if (fwrite(bytes, 1, count, file) != count) return 1;
    } while (code == TP_MORE);
    return code == TP_OK && fclose(file) == 0 ? 0 : 1;
}

int main(int argc, char **argv) {
    FILE *file = argc == 3 ? fopen(argv[1], "wb") : NULL;
    if (!file) return 2;
    events_each = strtoull(argv[2], NULL, 10);
    tp_info info = {{1970, 1, 4, 1, 0, 0, 0, 0}, 0, 1000000000, 8, 1, WRITERS, 0};
    tp_definition definition = {.id = 7, .version = 1, .level = 4};
    tp_field fields[] = {{0, 5, TP_UINT64}};
    if (tp_begin(&handle, &info) != TP_OK) return 1;
    if (tp_define(&handle, &definition, units(u"My-C-Program"), 12, units(u"Tick"), 4, fields, 1, units(u"index"), 5,
                  &tick) != TP_OK)
        return 1;
    pthread_t writers[WRITERS], pumping;
    if (pthread_create(&pumping, NULL, pump, file)) return 1;
    for (uintptr_t thread = 1; thread <= WRITERS; thread++)
        if (pthread_create(&writers[thread - 1], NULL, write_events, (void *)thread)) return 1;
    for (int thread = 0; thread < WRITERS; thread++) pthread_join(writers[thread], NULL);
    pthread_mutex_lock(&lock);
    over = true;
    uint32_t code = tp_point(&handle, ++stamp);
    pthread_mutex_unlock(&lock);
    pthread_join(pumping, NULL);
    return code == TP_OK ? end(file) : 1;
}
