// A stream of NetTrace, version 4, as one would read it by hand in C: for streams that are whole and in order. A stream that
// is refused ends the program with status 3 and no line that says why. Who includes this says what becomes of what is read.
#include <stdint.h>
#include <stdio.h>
#include <stdlib.h>
#include <string.h>
#include <unistd.h>

typedef struct {
    uint32_t metadata, number, processor, stack, size;
    uint64_t capture, thread, stamp;
    uint8_t activity[16], related[16];
} Head;

typedef struct {
    uint64_t thread, events, gaps;
    uint32_t last;
} Thread;

// The calls that whoever includes this has.
static void take_event(const Head *now, const uint8_t *payload);
static void take_definition(const uint8_t *at, const uint8_t *end);
static void take_stack(uint32_t id, const uint8_t *bytes, size_t size);
static void take_point(const uint8_t *threads, uint32_t count, uint64_t stamp);

static Thread *threads;
static size_t thread_count, thread_room;
static uint32_t *slots;
static size_t slot_count;
static int has_trace;
static uint64_t frequency;
static uint32_t trace_info[3];

static void refuse(void) { exit(3); }

static void *again(void *old, size_t size) {
    void *new = realloc(old, size);
    if (!new) exit(9);
    return new;
}

// Room for the value under this id, where there are this many places of this size; those that are new are zero.
static void *reach(void *old, uint32_t *room, uint32_t id, size_t size) {
    if (id < *room) return old;
    uint32_t more = id + 16 + *room;
    uint8_t *new = again(old, more * size);
    memset(new + *room * size, 0, (more - *room) * size);
    *room = more;
    return new;
}

static uint32_t number32(const uint8_t *at) { uint32_t n; memcpy(&n, at, 4); return n; }

static uint64_t number64(const uint8_t *at) { uint64_t n; memcpy(&n, at, 8); return n; }

static size_t slot_of(uint64_t thread) {
    size_t at = thread * 0x9E3779B97F4A7C15u >> 32 & (slot_count - 1);
    while (slots[at] && threads[slots[at] - 1].thread != thread) at = (at + 1) & (slot_count - 1);
    return at;
}

static Thread *thread_of(uint64_t thread) {
    static Thread *last;
    if (last && last->thread == thread) return last;
    if (2 * (thread_count + 1) > slot_count) {
        slot_count = slot_count ? 2 * slot_count : 64;
        slots = again(slots, slot_count * sizeof *slots);
        memset(slots, 0, slot_count * sizeof *slots);
        for (size_t i = 0; i < thread_count; i++) slots[slot_of(threads[i].thread)] = i + 1;
    }
    size_t slot = slot_of(thread);
    if (!slots[slot]) {
        if (thread_count == thread_room) {
            thread_room = thread_room ? 2 * thread_room : 16;
            threads = again(threads, thread_room * sizeof *threads);
        }
        threads[thread_count] = (Thread){.thread = thread};
        slots[slot] = ++thread_count;
    }
    return last = &threads[slots[slot] - 1];
}

static uint64_t varuint(const uint8_t **at, const uint8_t *end) {
    uint64_t value = 0;
    for (int shift = 0; shift < 64; shift += 7) {
        if (*at == end) refuse();
        uint8_t byte = *(*at)++;
        value |= (uint64_t)(byte & 127) << shift;
        if (byte < 128) return value;
    }
    refuse();
    return 0;
}

static const uint8_t *head(Head *now, const uint8_t *at, const uint8_t *end) {
    if (at == end) refuse();
    uint8_t flags = *at++;
    if (flags & 1) now->metadata = varuint(&at, end);
    if (flags & 2) {
        now->number += varuint(&at, end);
        now->capture = varuint(&at, end);
        now->processor = varuint(&at, end);
    }
    if (now->metadata) now->number++;
    if (flags & 4) now->thread = varuint(&at, end);
    if (flags & 8) now->stack = varuint(&at, end);
    now->stamp += varuint(&at, end);
    if (flags & 16) {
        if (end - at < 16) refuse();
        memcpy(now->activity, at, 16);
        at += 16;
    }
    if (flags & 32) {
        if (end - at < 16) refuse();
        memcpy(now->related, at, 16);
        at += 16;
    }
    if (flags & 128) now->size = varuint(&at, end);
    if ((size_t)(end - at) < now->size) refuse();
    return at;
}

static size_t text_size(const uint8_t *at, const uint8_t *end) {
    size_t size = 0;
    while (end - at >= 2 && (at[0] | at[1])) at += 2, size += 2;
    if (end - at < 2) refuse();
    return size;
}

static void blobs(const uint8_t *body, const uint8_t *end, int are_events) {
    if (end - body < 20) refuse();
    uint16_t size = body[0] | body[1] << 8;
    if (size < 20 || size > end - body || !(body[2] & 1)) refuse();
    Head now = {0};
    for (const uint8_t *at = body + size; at < end;) {
        at = head(&now, at, end);
        if (are_events) take_event(&now, at);
        else take_definition(at, at + now.size);
        at += now.size;
    }
}

static void stack_block(const uint8_t *at, const uint8_t *end) {
    if (end - at < 8) refuse();
    uint32_t id = number32(at), count = number32(at + 4);
    at += 8;
    for (; count > 0; count--, id++) {
        if (end - at < 4 || (size_t)(end - at - 4) < number32(at)) refuse();
        take_stack(id, at + 4, number32(at));
        at += 4 + number32(at);
    }
    if (at != end) refuse();
}

static void point(const uint8_t *at, const uint8_t *end) {
    if (end - at < 12 || (size_t)(end - at - 12) != 12 * (size_t)number32(at + 8)) refuse();
    take_point(at + 12, number32(at + 8), number64(at));
}

static uint8_t *input;
static size_t filled, input_room, passed, read_so_far;

// The next bytes, this many of them.
static const uint8_t *next(size_t count) {
    while (filled - passed < count) {
        memmove(input, input + passed, filled - passed);
        filled -= passed;
        passed = 0;
        if (input_room < count + 32768) input = again(input, input_room = count + 32768);
        ssize_t got = read(0, input + filled, 32768);
        if (got <= 0) refuse();
        filled += got;
    }
    passed += count;
    read_so_far += count;
    return input + passed - count;
}

// Reads standard input to its end.
static void read_stream(void) {
    if (memcmp(next(32), "Nettrace\x14\0\0\0!FastSerialization.1", 32)) refuse();
    for (;;) {
        uint8_t tag = *next(1);
        if (tag == 1 && has_trace) break;
        if (tag != 5) refuse();
        const uint8_t *begun = next(14);
        uint32_t name_size = number32(begun + 10);
        if (begun[0] != 5 || begun[1] != 1 || name_size > 13) refuse();
        char name[16] = {0};
        memcpy(name, next(name_size + 1), name_size);
        if (!strcmp(name, "Trace")) {
            const uint8_t *payload = next(48);
            frequency = number64(payload + 24);
            for (int i = 0; i < 3; i++) trace_info[i] = number32(payload + 32 + 4 * i);
            has_trace = 1;
        } else {
            uint32_t size = number32(next(4));
            if (size > 16777216) refuse();
            next(-read_so_far & 3);
            const uint8_t *body = next(size);
            if (!strcmp(name, "EventBlock")) blobs(body, body + size, 1);
            else if (!strcmp(name, "MetadataBlock")) blobs(body, body + size, 0);
            else if (!strcmp(name, "StackBlock")) stack_block(body, body + size);
            else if (!strcmp(name, "SPBlock")) point(body, body + size);
            else refuse();
        }
        if (*next(1) != 6) refuse();
    }
    if (filled > passed || read(0, input, 1) > 0) refuse();
}
