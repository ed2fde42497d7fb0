// The command `report` as one would write it by hand in C, for comparison: the same lines from the same stream.
#include "stream.h"

typedef struct {
    uint8_t *bytes;
    size_t size;
    uint64_t events;
    uint32_t id, version;
    uint8_t *name;
    size_t name_size;
} Key;

typedef struct {
    Key *keys;
    size_t count, room;
} Tally;

typedef struct {
    uint32_t provider, event;
    int is_there;
} Definition;

static Tally providers, events, stacks;
static Definition *definitions;
static uint32_t definition_room;
static int64_t *stack_places;
static uint32_t stack_room;
static uint64_t total_events, total_metadata, total_stacks, total_points;

static int compare_units(const uint8_t *a, size_t a_size, const uint8_t *b, size_t b_size) {
    for (size_t i = 0; i + 1 < a_size && i + 1 < b_size; i += 2) {
        int x = a[i] | a[i + 1] << 8, y = b[i] | b[i + 1] << 8;
        if (x != y) return x < y ? -1 : 1;
    }
    return a_size < b_size ? -1 : a_size > b_size;
}

static int compare_keys(const void *left, const void *right) {
    const Key *a = left, *b = right;
    int order = compare_units(a->bytes, a->size, b->bytes, b->size);
    if (order) return order;
    if (a->id != b->id) return a->id < b->id ? -1 : 1;
    if (a->version != b->version) return a->version < b->version ? -1 : 1;
    return compare_units(a->name, a->name_size, b->name, b->name_size);
}

static int compare_stacks(const void *left, const void *right) {
    const Key *a = left, *b = right;
    int order = memcmp(a->bytes, b->bytes, a->size < b->size ? a->size : b->size);
    return order ? order : a->size < b->size ? -1 : a->size > b->size;
}

static int compare_threads(const void *left, const void *right) {
    const Thread *a = left, *b = right;
    return a->thread < b->thread ? -1 : a->thread > b->thread;
}

static uint8_t *copy(const uint8_t *bytes, size_t size) {
    uint8_t *new = again(NULL, size + 1);
    memcpy(new, bytes, size);
    return new;
}

static uint32_t place_of(Tally *tally, Key key, int (*compare)(const void *, const void *)) {
    for (size_t i = 0; i < tally->count; i++)
        if (compare(&tally->keys[i], &key) == 0) return i;
    if (tally->count == tally->room) {
        tally->room = tally->room ? 2 * tally->room : 16;
        tally->keys = again(tally->keys, tally->room * sizeof(Key));
    }
    key.bytes = copy(key.bytes, key.size);
    if (key.name) key.name = copy(key.name, key.name_size);
    tally->keys[tally->count] = key;
    return tally->count++;
}

static void take_event(const Head *now, const uint8_t *payload) {
    (void)payload;
    total_events++;
    if (now->metadata >= definition_room || !definitions[now->metadata].is_there) refuse();
    const Definition *definition = &definitions[now->metadata];
    providers.keys[definition->provider].events++;
    events.keys[definition->event].events++;
    if (now->stack) {
        if (now->stack >= stack_room || stack_places[now->stack] == 0) refuse();
        if (stack_places[now->stack] > 0) stacks.keys[stack_places[now->stack] - 1].events++;
    }
    Thread *thread = thread_of(now->capture);
    thread->events++;
    thread->gaps += now->number - (thread->last + 1);
    thread->last = now->number;
}

static void take_definition(const uint8_t *at, const uint8_t *end) {
    total_metadata++;
    if (end - at < 4) refuse();
    uint32_t id = number32(at);
    at += 4;
    Key provider = {.bytes = (uint8_t *)at, .size = text_size(at, end)};
    at += provider.size + 2;
    if (end - at < 4) refuse();
    Key key = provider;
    key.id = number32(at);
    at += 4;
    key.name = (uint8_t *)at;
    key.name_size = text_size(at, end);
    at += key.name_size + 2;
    if (end - at < 20) refuse();
    key.version = number32(at + 8);
    definitions = reach(definitions, &definition_room, id, sizeof *definitions);
    if (definitions[id].is_there) refuse();
    definitions[id] = (Definition){place_of(&providers, provider, compare_keys), place_of(&events, key, compare_keys), 1};
}

static void take_stack(uint32_t id, const uint8_t *bytes, size_t size) {
    Key key = {.bytes = (uint8_t *)bytes, .size = size};
    stack_places = reach(stack_places, &stack_room, id, sizeof *stack_places);
    stack_places[id] = size ? (int64_t)place_of(&stacks, key, compare_stacks) + 1 : -1;
    total_stacks++;
}

static void take_point(const uint8_t *at, uint32_t count, uint64_t stamp) {
    (void)stamp;
    for (; count > 0; count--, at += 12) {
        Thread *thread = thread_of(number64(at));
        thread->gaps += number32(at + 8) - thread->last;
        thread->last = number32(at + 8);
    }
    if (stack_room) memset(stack_places, 0, stack_room * sizeof *stack_places);
    total_points++;
}

static void put_units(const uint8_t *bytes, size_t size) {
    putchar(' ');
    if (!size) putchar('-');
    for (size_t i = 0; i < size; i += 2) {
        int unit = bytes[i] | bytes[i + 1] << 8;
        if (unit >= 33 && unit <= 126 && unit != '\\') putchar(unit);
        else printf("\\u%04x", unit);
    }
}

static void print_all(void) {
    printf("trace %10u %10u %10u\n", trace_info[0], trace_info[1], trace_info[2]);
    printf("items %10lu %10lu %10lu %10lu\n", total_events, total_metadata, total_stacks, total_points);
    qsort(providers.keys, providers.count, sizeof(Key), compare_keys);
    for (size_t i = 0; i < providers.count; i++) {
        printf("provider %10lu", providers.keys[i].events);
        put_units(providers.keys[i].bytes, providers.keys[i].size);
        putchar('\n');
    }
    qsort(events.keys, events.count, sizeof(Key), compare_keys);
    for (size_t i = 0; i < events.count; i++) {
        const Key *key = &events.keys[i];
        printf("event %10lu %10u %10u", key->events, key->id, key->version);
        put_units(key->bytes, key->size);
        put_units(key->name, key->name_size);
        putchar('\n');
    }
    qsort(threads, thread_count, sizeof(Thread), compare_threads);
    for (size_t i = 0; i < thread_count; i++)
        printf("thread %10lu %10lu %10u %10lu\n", threads[i].thread, threads[i].events, threads[i].last, threads[i].gaps);
    qsort(stacks.keys, stacks.count, sizeof(Key), compare_stacks);
    for (size_t i = 0; i < stacks.count; i++) {
        if (!stacks.keys[i].events) continue;
        printf("stack %10lu ", stacks.keys[i].events);
        for (size_t j = 0; j < stacks.keys[i].size; j++) printf("%02x", stacks.keys[i].bytes[j]);
        putchar('\n');
    }
}

int main(void) {
    read_stream();
    print_all();
}
