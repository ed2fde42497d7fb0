/*
 * Writes the same bytes as by_library.c, by code of its own: events of any kind are compressed as the format says, into
 * blocks of at most 102,400 bytes.
 */
#include <stdlib.h>
#include <string.h>
#include <uchar.h>
#include <unistd.h>

#include "tracepipe.h"

enum { BODY_BYTES = 102400, HEAD_BYTES = 88, HEADER_BYTES = 20 };

typedef struct head {
    uint32_t metadata, number, processor, stack, size;
    uint64_t capture, thread, stamp;
    uint8_t activity[16], related[16];
} head;

typedef struct block {
    uint8_t bytes[BODY_BYTES + HEADER_BYTES];
    size_t length;
    uint64_t least, greatest;
    head last;
} block;

static uint8_t out[1 << 20];
static size_t out_length, written;
static block events = {.length = HEADER_BYTES};

static void flush_out(void) {
    for (size_t sent = 0; sent < out_length;) {
        ssize_t now = write(1, out + sent, out_length - sent);
        if (now <= 0) exit(1);
        sent += (size_t)now;
    }
    written += out_length;
    out_length = 0;
}

static void put(const void *data, size_t length) {
    memcpy(out + out_length, data, length);
    out_length += length;
}

static void put_u32(uint32_t number) { put(&number, sizeof number); }

static void put_text(const char16_t *text, size_t units) {
    put(text, units * 2);
    put("\0", 2);
}

static void begin_object(uint32_t version, const char *name) {
    put("\5\5\1", 3);
    put_u32(version);
    put_u32(version);
    put_u32((uint32_t)strlen(name));
    put(name, strlen(name));
    put("\6", 1);
}

static void put_block(const char *name, const uint8_t *body, size_t length) {
    if (out_length + length + 64 > sizeof out) flush_out();
    begin_object(2, name);
    put_u32((uint32_t)length);
    put("\0\0\0", (0 - (written + out_length)) % 4);
    put(body, length);
    put("\6", 1);
}

static uint8_t *put_varuint(uint8_t *at, uint64_t number) {
    while (number >= 128) {
        *at++ = (uint8_t)(number | 128);
        number >>= 7;
    }
    *at++ = (uint8_t)number;
    return at;
}

static void put_blob(block *to, const head *now, const void *payload) {
    head *last = &to->last;
    uint8_t *flags = to->bytes + to->length, *at = flags + 1;
    *flags = 0;
    if (now->metadata != last->metadata) {
        *flags |= 1;
        at = put_varuint(at, now->metadata);
    }
    uint32_t next = now->metadata ? last->number + 1 : last->number;
    if (now->number != next || now->capture != last->capture || now->processor != last->processor) {
        *flags |= 2;
        at = put_varuint(at, (uint32_t)(now->number - next));
        at = put_varuint(at, now->capture);
        at = put_varuint(at, now->processor);
    }
    if (now->thread != last->thread) {
        *flags |= 4;
        at = put_varuint(at, now->thread);
    }
    if (now->stack != last->stack) {
        *flags |= 8;
        at = put_varuint(at, now->stack);
    }
    at = put_varuint(at, now->stamp - last->stamp);
    if (memcmp(now->activity, last->activity, 16) != 0) {
        *flags |= 16;
        memcpy(at, now->activity, 16);
        at += 16;
    }
    if (memcmp(now->related, last->related, 16) != 0) {
        *flags |= 32;
        memcpy(at, now->related, 16);
        at += 16;
    }
    if (now->size != last->size) {
        *flags |= 128;
        at = put_varuint(at, now->size);
    }
    memcpy(at, payload, now->size);
    if (to->length == HEADER_BYTES || now->stamp < to->least) to->least = now->stamp;
    if (to->length == HEADER_BYTES || now->stamp > to->greatest) to->greatest = now->stamp;
    to->length = (size_t)(at + now->size - to->bytes);
    *last = *now;
}

static void finish_block(const char *name, block *from) {
    memcpy(from->bytes, "\24\0\1\0", 4);
    memcpy(from->bytes + 4, &from->least, 8);
    memcpy(from->bytes + 12, &from->greatest, 8);
    put_block(name, from->bytes, from->length);
    memset(&from->last, 0, sizeof from->last);
    from->length = HEADER_BYTES;
}

static void put_start(void) {
    static const uint16_t date[8] = {1970, 1, 4, 1};
    uint64_t clock[2] = {0, 1000000000};
    put("Nettrace", 8);
    put_u32(20);
    put("!FastSerialization.1", 20);
    begin_object(4, "Trace");
    put(date, 16);
    put(clock, 16);
    put_u32(8);
    put_u32(1);
    put_u32(1);
    put_u32(0);
    put("\6", 1);
}

/* The definition of the event, made in `out` and taken from there into a block. */
static void put_definition(void) {
    static block metadata = {.length = HEADER_BYTES};
    size_t start = out_length;
    put_u32(1);
    put_text(u"My-C-Program", 12);
    put_u32(7);
    put_text(u"Tick", 4);
    put("\0\0\0\0\0\0\0\0", 8);
    put_u32(1);
    put_u32(4);
    put_u32(1);
    put_u32(TP_UINT64);
    put_text(u"index", 5);
    uint8_t payload[256];
    size_t length = out_length - start;
    memcpy(payload, out + start, length);
    out_length = start;
    uint8_t *at = metadata.bytes + HEADER_BYTES;
    *at++ = 0xc0;
    *at++ = 0;
    at = put_varuint(at, length);
    memcpy(at, payload, length);
    metadata.length = (size_t)(at + length - metadata.bytes);
    finish_block("MetadataBlock", &metadata);
}

int main(int argc, char **argv) {
    uint64_t count = argc == 2 ? strtoull(argv[1], NULL, 10) : 0;
    bool is_defined = false;
    put_start();
    for (uint64_t index = 1; index <= count; index++) {
        head now = {.metadata = 1, .number = (uint32_t)index, .capture = 1, .thread = 1, .stamp = index * 50,
                    .size = sizeof index};
        if (events.length + HEAD_BYTES + now.size > BODY_BYTES) {
            if (!is_defined) put_definition();
            is_defined = true;
            finish_block("EventBlock", &events);
        }
        put_blob(&events, &now, &index);
    }
    if (count && !is_defined) put_definition();
    if (count) finish_block("EventBlock", &events);
    uint8_t point[24];
    uint64_t stamp = (count + 1) * 50, thread = 1;
    uint32_t threads = count ? 1 : 0, number = (uint32_t)count;
    memcpy(point, &stamp, 8);
    memcpy(point + 8, &threads, 4);
    memcpy(point + 12, &thread, 8);
    memcpy(point + 20, &number, 4);
    put_block("SPBlock", point, threads ? 24 : 12);
    put("\1", 1);
    flush_out();
    return 0;
}
