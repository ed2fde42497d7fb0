/*
 * What `tracepipe trace THREADS WRITES` does for a session that gets every event, in plain C: threads make the sample
 * program's writes, each under the lock of its row, and put a record into each buffer that is due, under its own; the first
 * thread takes what they wrote and writes the stream, to standard output. A budget of 256 megabytes bounds what waits; a
 * write for which it has no chunk is refused, and missing from the numbers. A third word, as `none`, is a session that gets
 * none.
 */
#include <pthread.h>
#include <stdio.h>
#include <time.h>
#include <uchar.h>
#include <unistd.h>

#include "plain.c"

enum { SESSIONS = 64, ROWS = 256, EVENTS = 8, CHUNK_BYTES = 65536, CHUNKS = 4096 };

typedef struct chunk {
    struct chunk *next;
    size_t used;
    uint8_t records[CHUNK_BYTES];
} chunk;

typedef struct record {
    tp_event_head head;
    uint32_t number, frames_bytes, payload_bytes;
} record;

/* The chunks of a session that nobody has. */
typedef struct pool {
    pthread_mutex_t lock;
    chunk *free;
} pool;

typedef struct buffer {
    pthread_mutex_t lock;
    pool *pool;
    uint32_t number, refused;
    chunk *first, *last;
} buffer;

typedef struct row {
    pthread_mutex_t lock;
    uint64_t masks[EVENTS]; /* of each event, a bit for each session that gets it */
    uint32_t index;
    buffer buffers[SESSIONS];
} row;

typedef struct draft {
    tp_event_head head;
    uint64_t frames[3];
    uint8_t payload[12];
    uint32_t frames_bytes, payload_bytes;
} draft;

static row rows[ROWS];
static pool chunks = {.lock = PTHREAD_MUTEX_INITIALIZER};
static uint32_t threads, writes, writing;
static pthread_mutex_t ending = PTHREAD_MUTEX_INITIALIZER;

static chunk *take_chunk(pool *from) {
    pthread_mutex_lock(&from->lock);
    chunk *taken = from->free;
    if (taken) from->free = taken->next;
    pthread_mutex_unlock(&from->lock);
    return taken;
}

static void give_chunk(pool *to, chunk *given) {
    pthread_mutex_lock(&to->lock);
    given->next = to->free;
    to->free = given;
    pthread_mutex_unlock(&to->lock);
}

static bool append(buffer *to, const draft *from) {
    size_t size = sizeof(record) + from->frames_bytes + from->payload_bytes;
    chunk *last = to->last;
    if (!last || CHUNK_BYTES - last->used < size) {
        last = take_chunk(to->pool);
        if (!last) return false;
        last->next = NULL;
        last->used = 0;
        if (to->last) to->last->next = last;
        else to->first = last;
        to->last = last;
    }
    uint8_t *at = last->records + last->used;
    record head = {from->head, to->number, from->frames_bytes, from->payload_bytes};
    memcpy(at, &head, sizeof head);
    memcpy(at + sizeof head, from->frames, from->frames_bytes);
    memcpy(at + sizeof head + from->frames_bytes, from->payload, from->payload_bytes);
    last->used += size;
    return true;
}

static void show(buffer *to, const draft *from) {
    pthread_mutex_lock(&to->lock);
    to->number++;
    if (!append(to, from)) to->refused++;
    pthread_mutex_unlock(&to->lock);
}

static uint64_t now(void) {
    struct timespec time;
    clock_gettime(CLOCK_MONOTONIC, &time);
    return (uint64_t)time.tv_sec * 1000000000 + (uint64_t)time.tv_nsec;
}

/* The write of a thread after this many others, whose shape is that of eight writes before. */
static void renumber(draft *shape, uint32_t thread, uint32_t index) {
    if (shape->head.event <= 3) {
        uint64_t activity[2] = {thread, index};
        memcpy(shape->head.activity, activity, 16);
    }
    for (uint32_t place = 0; place < index % 4; place++)
        shape->frames[place] = 4194304 + 4096 * (uint64_t)(index % 16) + 16 * place;
    if (shape->payload_bytes) memcpy(shape->payload, &index, 4);
}

static void shape_drafts(draft shapes[EVENTS], uint32_t thread) {
    for (uint32_t index = 0; index < EVENTS; index++) {
        draft *it = &shapes[index];
        uint64_t wide = thread;
        it->head.thread = thread;
        it->head.event = 1 + (thread + index) % EVENTS;
        it->frames_bytes = 8 * (index % 4);
        it->payload_bytes = it->head.event == 6 ? 0 : it->head.event == 2 ? 12 : 4;
        memcpy(it->payload + 4, &wide, 8);
    }
}

static void write_next(row *to, draft shapes[EVENTS], uint32_t thread) {
    pthread_mutex_lock(&to->lock);
    uint32_t index = to->index++;
    uint64_t due = to->masks[(thread + index) % EVENTS];
    if (due) {
        draft *shape = &shapes[index % EVENTS];
        renumber(shape, thread, index);
        shape->head.stamp = now();
        for (; due; due &= due - 1) show(&to->buffers[__builtin_ctzll(due)], shape);
    }
    pthread_mutex_unlock(&to->lock);
}

static __attribute__((noinline)) void write_all(row *to, uint32_t thread) {
    draft shapes[EVENTS] = {0};
    shape_drafts(shapes, thread);
    for (uint32_t count = 0; count < writes; count++) write_next(to, shapes, thread);
}

static void *write_thread(void *given) {
    row *to = given;
    write_all(to, (uint32_t)(to - rows) + 1);
    pthread_mutex_lock(&ending);
    writing--;
    pthread_mutex_unlock(&ending);
    return NULL;
}

static void send(stream *from) {
    for (size_t length; (length = from->out.length - from->pulled) > 0;) {
        ssize_t sent = write(1, from->out.data + from->pulled, length);
        if (sent <= 0) exit(1);
        from->pulled += (size_t)sent;
    }
    from->out.length = from->pulled = 0;
}

/* Takes what a buffer has, and writes its events. Answers whether there were any. */
static bool steal(buffer *from, stream *to) {
    pthread_mutex_lock(&from->lock);
    chunk *next = from->first;
    from->first = from->last = NULL;
    pthread_mutex_unlock(&from->lock);
    if (!next) return false;
    while (next) {
        chunk *taken = next;
        next = taken->next;
        for (size_t at = 0; at < taken->used;) {
            record head;
            memcpy(&head, taken->records + at, sizeof head);
            const uint8_t *frames = taken->records + at + sizeof head;
            if (!write_event(to, &head.head, head.number, frames, head.frames_bytes, frames + head.frames_bytes,
                             head.payload_bytes))
                exit(1);
            at += sizeof head + head.frames_bytes + head.payload_bytes;
        }
        give_chunk(from->pool, taken);
        send(to);
    }
    return true;
}

/* Writes the stream of what the threads write, until all have ended. */
static void stream_all(stream *to) {
    const struct timespec rest = {.tv_nsec = 1000000};
    for (bool is_over = false; !is_over;) {
        pthread_mutex_lock(&ending);
        is_over = writing == 0;
        pthread_mutex_unlock(&ending);
        bool found = false;
        for (uint32_t number = 0; number < threads; number++) found |= steal(&rows[number].buffers[0], to);
        if (!found && !is_over) nanosleep(&rest, NULL);
    }
}

static const uint16_t *units(const char16_t *text) { return (const uint16_t *)text; }

static void define(tp_handle *handle, const char16_t *provider, size_t provider_units, const char16_t *name,
                   size_t name_units, uint32_t id, uint32_t level, uint64_t keywords, size_t fields_count) {
    static const tp_field fields[] = {{0, 5, TP_INT32}, {0, 6, TP_UINT64}};
    tp_definition numbers = {.keywords = keywords, .id = id, .level = level};
    uint32_t number;
    if (tp_define(handle, &numbers, units(provider), provider_units, units(name), name_units, fields, fields_count,
                  units(u"indexthread"), fields_count == 2 ? 11 : 5 * fields_count, &number)
        != TP_OK)
        exit(1);
}

#define DEFINE(provider, name, ...) \
    define(handle, provider, sizeof(provider) / 2 - 1, name, sizeof(name) / 2 - 1, __VA_ARGS__)

static void define_all(tp_handle *handle) {
    DEFINE(u"Sample-Web", u"RequestStart", 1, 4, 1, 1);
    DEFINE(u"Sample-Web", u"RequestStop", 2, 4, 1, 2);
    DEFINE(u"Sample-Web", u"RequestFailed", 3, 2, 2, 1);
    DEFINE(u"Sample-Store", u"PageRead", 1, 5, 1, 1);
    DEFINE(u"Sample-Store", u"PageWrite", 2, 4, 2, 1);
    DEFINE(u"Sample-Store", u"StoreOpened", 3, 0, 0, 0);
    DEFINE(u"Sample-Jobs", u"JobQueued", 1, 4, 3, 1);
    DEFINE(u"Sample-Jobs", u"JobSlow", 2, 3, 4, 1);
}

/* A point says how far each thread came, refused writes and all. */
static bool end_stream(stream *to) {
    for (uint32_t number = 0; number < threads; number++) {
        uint32_t had;
        if (!rows[number].buffers[0].number) continue;
        if (count(to, number + 1, &had) != TP_OK) return false;
        to->last->count = rows[number].buffers[0].number;
    }
    return put_point(to, now());
}

int main(int argc, char **argv) {
    static pthread_t ids[ROWS];
    tp_handle handle = {0};
    tp_info info = {{1970, 1, 4, 1, 0, 0, 0, 0}, 0, 1000000000, 8, 1, 1, 0};
    if (argc < 3) return 2;
    threads = writing = (uint32_t)strtoul(argv[1], NULL, 10);
    writes = (uint32_t)strtoul(argv[2], NULL, 10);
    if (threads > ROWS || tp_begin(&handle, &info) != TP_OK) return 2;
    define_all(&handle);
    for (uint32_t number = 0; number < CHUNKS; number++) {
        chunk *made = malloc(sizeof *made);
        if (!made) return 1;
        give_chunk(&chunks, made);
    }
    for (uint32_t number = 0; number < threads; number++) {
        row *it = &rows[number];
        pthread_mutex_init(&it->lock, NULL);
        for (uint32_t slot = 0; slot < SESSIONS; slot++) pthread_mutex_init(&it->buffers[slot].lock, NULL);
        it->buffers[0].pool = &chunks;
        for (uint32_t event = 0; event < EVENTS; event++) it->masks[event] = argc == 3;
    }
    for (uint32_t number = 0; number < threads; number++)
        if (pthread_create(&ids[number], NULL, write_thread, &rows[number])) return 1;
    stream_all(handle.at);
    for (uint32_t number = 0; number < threads; number++) pthread_join(ids[number], NULL);
    if (!end_stream(handle.at)) return 1;
    uint8_t bytes[4096];
    size_t pulled;
    uint32_t code;
    do {
        code = tp_end(&handle, bytes, sizeof bytes, &pulled);
        if (write(1, bytes, pulled) != (ssize_t)pulled) return 1;
    } while (code == TP_MORE);
    return code == TP_OK ? 0 : 1;
}
