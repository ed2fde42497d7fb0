/*
 * Refuses the library's growths of memory, another one in each run, and makes the call again that answers
 * TP_OUT_OF_MEMORY: the stream is the same then. Where a growth was refused amid a write the call answers TP_CUT, and so do
 * those after it and the end, and what was pulled begins the stream. It prints how many growths there are, and how many of
 * them cut the stream. It is linked with -Wl,--wrap=malloc,--wrap=realloc.
 */
#include <stdio.h>
#include <stdlib.h>
#include <string.h>
#include <uchar.h>

#include "tracepipe.h"

enum { EVENTS = 20000, MOST = 1 << 20 };

static long before_refusal = -1; /* how many growths come before the one that is refused, -1 where none is */

void *__real_malloc(size_t size);
void *__real_realloc(void *at, size_t size);

static bool is_refused(void) { return before_refusal >= 0 && before_refusal-- == 0; }

void *__wrap_malloc(size_t size) { return is_refused() ? NULL : __real_malloc(size); }

void *__wrap_realloc(void *at, size_t size) { return is_refused() ? NULL : __real_realloc(at, size); }

static const uint16_t *units(const char16_t *text) { return (const uint16_t *)text; }

static uint32_t again(uint32_t code, uint32_t (*call)(tp_handle *, uint64_t), tp_handle *handle, uint64_t index) {
    return code == TP_OUT_OF_MEMORY ? call(handle, index) : code;
}

static uint32_t begin(tp_handle *handle, uint64_t index) {
    tp_info info = {{1970, 1, 4, 1, 0, 0, 0, 0}, index, 1000000000, 8, 1, 1, 0};
    return tp_begin(handle, &info);
}

static uint32_t define(tp_handle *handle, uint64_t index) {
    tp_definition definition = {.id = (uint32_t)index, .version = 1, .level = 4};
    tp_field fields[] = {{0, 5, TP_UINT64}};
    uint32_t number = 0;
    uint32_t code = tp_define(handle, &definition, units(u"My-C-Program"), 12, units(u"Tick"), 4, fields, 1,
                              units(u"index"), 5, &number);
    return code == TP_OK && number != index ? TP_NO_DEFINITION : code;
}

static uint32_t event(tp_handle *handle, uint64_t index) {
    uint64_t frames[] = {4096 + index % 50, 8192};
    tp_event_head head = {.thread = index % 40, .stamp = index * 50, .event = 1 + (uint32_t)(index % 3)};
    return tp_event(handle, &head, frames, sizeof frames, &index, sizeof index);
}

/* One run: the bytes of the stream, and whether it was cut. */
static size_t run(uint8_t *bytes, bool *is_cut) {
    tp_handle handle = {0};
    size_t length = 0, count = 0;
    uint32_t code = again(begin(&handle, 0), begin, &handle, 0);
    for (uint64_t index = 1; code == TP_OK && index <= 3; index++)
        code = again(define(&handle, index), define, &handle, index);
    for (uint64_t index = 1; code == TP_OK && index <= EVENTS; index++) {
        code = again(event(&handle, index), event, &handle, index);
        if (index % 5000 == 0) {
            if (code == TP_OK) code = again(tp_point(&handle, index * 50), tp_point, &handle, index * 50);
            if (tp_pull(&handle, bytes + length, MOST - length, &count) != TP_OK) exit(1);
            length += count;
        }
    }
    if (code != TP_OK && (code != TP_CUT || event(&handle, 1) != TP_CUT || define(&handle, 1) != TP_CUT)) exit(1);
    uint32_t last;
    do {
        last = tp_end(&handle, bytes + length, 100000 < MOST - length ? 100000 : MOST - length, &count);
        length += count;
    } while (last == TP_MORE);
    if (last != TP_OK && last != TP_CUT) exit(1);
    if (code == TP_CUT && last != TP_CUT) exit(1);
    *is_cut = last == TP_CUT;
    return length;
}

int main(void) {
    static uint8_t whole[MOST], bytes[MOST];
    bool is_cut = false;
    size_t length = run(whole, &is_cut), cuts = 0;
    if (is_cut) return 1;
    for (long refused = 0;; refused++) {
        before_refusal = refused;
        size_t here = run(bytes, &is_cut);
        if (before_refusal >= 0) {
            printf("%ld growths, each refused once: %zu cut the stream\n", refused, cuts);
            return 0;
        }
        if (here > length || memcmp(whole, bytes, here) || (!is_cut && here != length)) return 1;
        cuts += is_cut;
    }
}
