/* Writes a stream of five events to the file that it is told: cc tick.c -I../../include libtracepipe.a -o tick */
#include <stdio.h>
#include <uchar.h>

#include "tracepipe.h"

static const uint16_t *units(const char16_t *text) { return (const uint16_t *)text; }

static int pull_all(tp_handle *handle, FILE *file) {
    uint8_t bytes[65536];
    size_t count;
    uint32_t code;
    do {
        code = tp_end(handle, bytes, sizeof bytes, &count);
        if (code == TP_OK || code == TP_MORE || code == TP_CUT) fwrite(bytes, 1, count, file);
    } while (code == TP_MORE);
    return code == TP_OK ? 0 : 1;
}

int main(int argc, char **argv) {
    FILE *file = argc == 2 ? fopen(argv[1], "wb") : NULL;
    if (!file) return 2;
    tp_handle handle = {0};
    tp_info info = {{1970, 1, 4, 1, 0, 0, 0, 0}, 0, 1000000000, 8, 1, 1, 0};
    tp_definition definition = {.id = 7, .version = 1, .level = 4};
    tp_field fields[] = {{0, 5, TP_INT32}};
    uint32_t number;
    if (tp_begin(&handle, &info) != TP_OK) return 1;
    if (tp_define(&handle, &definition, units(u"My-C-Program"), 12, units(u"Tick"), 4, fields, 1, units(u"count"), 5,
                  &number) != TP_OK)
        return 1;
    for (uint32_t count = 1; count <= 5; count++) {
        tp_event_head event = {.thread = 1, .stamp = count * 100, .event = number};
        if (tp_event(&handle, &event, NULL, 0, &count, sizeof count) != TP_OK) return 1;
    }
    if (tp_point(&handle, 600) != TP_OK) return 1;
    int status = pull_all(&handle, file);
    return fclose(file) == 0 ? status : 1;
}
