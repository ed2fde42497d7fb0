/*
 * Writes as many events of one thread as it is told, by the library, to standard output. With a second word they are of two
 * definitions in turn, and each has two frames, one of twelve stacks.
 */
#include <stdlib.h>
#include <uchar.h>
#include <unistd.h>

#include "tracepipe.h"

enum { BETWEEN_PULLS = 4096, STACKS = 12 };

static uint8_t bytes[1 << 20];

static const uint16_t *units(const char16_t *text) { return (const uint16_t *)text; }

static void write_all(size_t count) {
    for (size_t sent = 0; sent < count;) {
        ssize_t now = write(1, bytes + sent, count - sent);
        if (now <= 0) exit(1);
        sent += (size_t)now;
    }
}

static int write_plain(tp_handle *handle, uint32_t number, uint64_t count) {
    size_t pulled;
    for (uint64_t index = 1; index <= count; index++) {
        tp_event_head event = {.thread = 1, .stamp = index * 50, .event = number};
        if (tp_event(handle, &event, NULL, 0, &index, sizeof index) != TP_OK) return 1;
        if (index % BETWEEN_PULLS == 0) {
            if (tp_pull(handle, bytes, sizeof bytes, &pulled) != TP_OK) return 1;
            write_all(pulled);
        }
    }
    return 0;
}

static int write_mixed(tp_handle *handle, uint64_t count) {
    size_t pulled;
    uint32_t stack = 0;
    for (uint64_t index = 1; index <= count; index++) {
        tp_event_head event = {.thread = 1, .stamp = index * 50, .event = 1 + index % 2};
        uint64_t frames[2] = {0x400000 + 16 * stack, 0x500000};
        if (++stack == STACKS) stack = 0;
        if (tp_event(handle, &event, frames, sizeof frames, &index, sizeof index) != TP_OK) return 1;
        if (index % BETWEEN_PULLS == 0) {
            if (tp_pull(handle, bytes, sizeof bytes, &pulled) != TP_OK) return 1;
            write_all(pulled);
        }
    }
    return 0;
}

int main(int argc, char **argv) {
    uint64_t count = argc > 1 ? strtoull(argv[1], NULL, 10) : 0;
    tp_handle handle = {0};
    tp_info info = {{1970, 1, 4, 1, 0, 0, 0, 0}, 0, 1000000000, 8, 1, 1, 0};
    tp_definition definition = {.id = 7, .version = 1, .level = 4};
    tp_field fields[] = {{0, 5, TP_UINT64}};
    uint32_t number;
    size_t pulled = 0;
    if (tp_begin(&handle, &info) != TP_OK) return 1;
    if (tp_define(&handle, &definition, units(u"My-C-Program"), 12, units(u"Tick"), 4, fields, 1, units(u"index"), 5,
                  &number) != TP_OK)
        return 1;
    if (argc == 2) {
        if (write_plain(&handle, number, count)) return 1;
    } else {
        definition.id = 8;
        if (tp_define(&handle, &definition, units(u"My-C-Program"), 12, units(u"Tock"), 4, fields, 1, units(u"index"), 5,
                      &number) != TP_OK || write_mixed(&handle, count))
            return 1;
    }
    if (tp_point(&handle, (count + 1) * 50) != TP_OK) return 1;
    uint32_t code;
    do {
        code = tp_end(&handle, bytes, sizeof bytes, &pulled);
        write_all(pulled);
    } while (code == TP_MORE);
    return code == TP_OK ? 0 : 1;
}
