/*
 * The functions of include/tracepipe.h in plain C, as one would write them by hand: the same answers, the same bytes, and
 * nothing proved. bench/c.sh counts what this takes beside what the proved library takes.
 */
#include <stdlib.h>
#include <string.h>

#include "tracepipe.h"

enum {
    BODY_BYTES = 102400, HEAD_BYTES = 88, HEADER_BYTES = 20, STACKS_BYTES = 8,
    DEFINITIONS = 1000, FIELDS = 100, DEPTH = 8, NAME_UNITS = 1000, FIELD_UNITS = 200,
    FRAME_BYTES = 8, STACK_BYTES = 800, PAYLOAD_BYTES = 60000, THREADS = 1000001, FRAMED = 2147483646
};

typedef struct bytes {
    uint8_t *data;
    size_t length, room;
} bytes;

typedef struct definition {
    tp_definition numbers;
    bytes provider, name, fields, names;
    uint32_t id; /* in the stream, from its first event on */
} definition;

typedef struct thread {
    uint64_t thread;
    uint32_t count; /* 0: nobody stands here */
} thread;

typedef struct stack {
    uint8_t *frames;
    size_t size;
    uint32_t id; /* 0: nothing stands here */
} stack;

typedef struct head {
    uint32_t metadata, number, stack, size;
    uint64_t thread, stamp;
    uint8_t activity[16], related[16];
} head;

typedef struct block {
    uint8_t body[BODY_BYTES];
    size_t length;
    uint64_t least, greatest;
    head last;
} block;

typedef struct stream {
    bool is_ended, is_cut;
    block events, metadata;
    definition *definitions;
    size_t definition_count, used;
    thread *threads, *last; /* two places or more for each */
    size_t thread_count, thread_places;
    stack *stacks;
    size_t stack_count, stack_places;
    bytes fresh; /* the body of the stacks that no block has yet */
    uint32_t fresh_count, framed;
    bytes out;
    size_t pulled;
    uint64_t written;
} stream;

static bool reserve(bytes *to, size_t more) {
    if (to->room - to->length >= more) return true;
    size_t room = 2 * to->room > to->length + more ? 2 * to->room : to->length + more;
    uint8_t *data = realloc(to->data, room);
    if (!data) return false;
    to->data = data;
    to->room = room;
    return true;
}

/* What follows up to begin_object needs room that is there. */
static void put(bytes *to, const void *data, size_t length) {
    if (length) memcpy(to->data + to->length, data, length);
    to->length += length;
}

static void put_u32(bytes *to, uint32_t number) { put(to, &number, sizeof number); }

static void put_u64(bytes *to, uint64_t number) { put(to, &number, sizeof number); }

static void put_text(bytes *to, const void *units, size_t length) {
    put(to, units, length);
    put(to, "\0", 2);
}

static void begin_object(bytes *to, uint32_t version, const char *name) {
    put(to, "\5\5\1", 3);
    put_u32(to, version);
    put_u32(to, version);
    put_u32(to, (uint32_t)strlen(name));
    put(to, name, strlen(name));
    put(to, "\6", 1);
}

static bool put_block(stream *to, const char *name, const uint8_t *body, size_t length) {
    bytes *out = &to->out;
    if (!reserve(out, length + 64)) return false;
    size_t begun = out->length;
    begin_object(out, 2, name);
    put_u32(out, (uint32_t)length);
    put(out, "\0\0\0", (0 - (to->written + (out->length - begun))) % 4);
    put(out, body, length);
    put(out, "\6", 1);
    to->written += out->length - begun;
    return true;
}

static uint8_t *put_varuint(uint8_t *at, uint64_t number) {
    while (number >= 128) {
        *at++ = (uint8_t)(number | 128);
        number >>= 7;
    }
    *at++ = (uint8_t)number;
    return at;
}

static void put_blob(block *to, uint8_t flags, const head *now, const void *payload) {
    head *last = &to->last;
    uint8_t *begun = to->body + to->length, *at = begun + 1;
    if (now->metadata != last->metadata) {
        flags |= 1;
        at = put_varuint(at, now->metadata);
    }
    uint32_t next = now->metadata ? last->number + 1 : last->number;
    if (now->number != next || now->thread != last->thread) {
        flags |= 2;
        at = put_varuint(at, (uint32_t)(now->number - next));
        at = put_varuint(at, now->thread);
        *at++ = 0;
    }
    if (now->thread != last->thread) {
        flags |= 4;
        at = put_varuint(at, now->thread);
    }
    if (now->stack != last->stack) {
        flags |= 8;
        at = put_varuint(at, now->stack);
    }
    at = put_varuint(at, now->stamp - last->stamp);
    if (memcmp(now->activity, last->activity, 16) != 0) {
        flags |= 16;
        memcpy(at, now->activity, 16);
        at += 16;
    }
    if (memcmp(now->related, last->related, 16) != 0) {
        flags |= 32;
        memcpy(at, now->related, 16);
        at += 16;
    }
    if (now->size != last->size) {
        flags |= 128;
        at = put_varuint(at, now->size);
    }
    *begun = flags;
    memcpy(at, payload, now->size);
    if (to->length == HEADER_BYTES || now->stamp < to->least) to->least = now->stamp;
    if (to->length == HEADER_BYTES || now->stamp > to->greatest) to->greatest = now->stamp;
    to->length = (size_t)(at + now->size - to->body);
    *last = *now;
}

static bool flush_blobs(stream *to, const char *name, block *from) {
    if (from->length == HEADER_BYTES) return true;
    memcpy(from->body, "\24\0\1\0", 4);
    memcpy(from->body + 4, &from->least, 8);
    memcpy(from->body + 12, &from->greatest, 8);
    if (!put_block(to, name, from->body, from->length)) return false;
    memset(&from->last, 0, sizeof from->last);
    from->length = HEADER_BYTES;
    return true;
}

static bool flush_stacks(stream *to) {
    if (to->fresh.length == STACKS_BYTES) return true;
    uint32_t first = (uint32_t)to->stack_count - to->fresh_count + 1;
    memcpy(to->fresh.data, &first, 4);
    memcpy(to->fresh.data + 4, &to->fresh_count, 4);
    if (!put_block(to, "StackBlock", to->fresh.data, to->fresh.length)) return false;
    to->fresh.length = STACKS_BYTES;
    to->fresh_count = 0;
    return true;
}

static bool flush(stream *to) {
    return flush_blobs(to, "MetadataBlock", &to->metadata) && flush_stacks(to)
           && flush_blobs(to, "EventBlock", &to->events);
}

static uint64_t spread(uint64_t word) { return word * 0x9e3779b97f4a7c15u; }

/* The place of a thread, or the one where it is to stand. */
static thread *place_of(thread *threads, size_t places, uint64_t wanted) {
    size_t at = spread(wanted) >> 32 & (places - 1);
    while (threads[at].count && threads[at].thread != wanted) at = (at + 1) & (places - 1);
    return &threads[at];
}

static bool widen_threads(stream *to) {
    size_t places = to->thread_places ? 2 * to->thread_places : 16;
    thread *threads = calloc(places, sizeof *threads);
    if (!threads) return false;
    for (size_t at = 0; at < to->thread_places; at++)
        if (to->threads[at].count) *place_of(threads, places, to->threads[at].thread) = to->threads[at];
    free(to->threads);
    to->threads = threads;
    to->thread_places = places;
    to->last = NULL;
    return true;
}

/* Counts one event more of a thread. */
static uint32_t count(stream *to, uint64_t wanted, uint32_t *number) {
    thread *found = to->last;
    if (!found || found->thread != wanted) {
        if (2 * (to->thread_count + 1) > to->thread_places && !widen_threads(to)) return TP_OUT_OF_MEMORY;
        found = place_of(to->threads, to->thread_places, wanted);
        if (!found->count) {
            if (to->thread_count == THREADS) return TP_TOO_MANY_THREADS;
            found->thread = wanted;
            to->thread_count++;
        }
        to->last = found;
    }
    if (found->count == UINT32_MAX) return TP_TOO_MANY_EVENTS;
    *number = ++found->count;
    return TP_OK;
}

static size_t slot_of(const stack *stacks, size_t places, const uint8_t *frames, size_t size) {
    uint64_t sum = size, word;
    for (size_t at = 0; at < size; at += FRAME_BYTES) {
        memcpy(&word, frames + at, sizeof word);
        sum = spread(sum ^ word);
    }
    size_t at = sum >> 32 & (places - 1);
    while (stacks[at].id && (stacks[at].size != size || memcmp(stacks[at].frames, frames, size) != 0))
        at = (at + 1) & (places - 1);
    return at;
}

static bool widen_stacks(stream *to) {
    size_t places = to->stack_places ? 2 * to->stack_places : 64;
    stack *stacks = calloc(places, sizeof *stacks);
    if (!stacks) return false;
    for (size_t at = 0; at < to->stack_places; at++) {
        stack *it = &to->stacks[at];
        if (it->id) stacks[slot_of(stacks, places, it->frames, it->size)] = *it;
    }
    free(to->stacks);
    to->stacks = stacks;
    to->stack_places = places;
    return true;
}

static void forget_stacks(stream *to) {
    for (size_t at = 0; at < to->stack_places; at++) free(to->stacks[at].frames);
    if (to->stacks) memset(to->stacks, 0, to->stack_places * sizeof *to->stacks);
    to->stack_count = 0;
    to->framed = 0;
}

/* How many of the first fields are deeper than this. */
static size_t inside(const tp_field *fields, size_t count, uint32_t depth) {
    size_t deeper = 0;
    while (deeper < count && fields[deeper].depth > depth) deeper++;
    return deeper;
}

static void put_fields(bytes *to, const tp_field *fields, size_t count, uint32_t depth, const uint8_t **names) {
    uint32_t here = 0;
    for (size_t at = 0; at < count; at++) here += fields[at].depth == depth;
    put_u32(to, here);
    for (size_t at = 0; at < count;) {
        const tp_field *field = &fields[at];
        size_t deeper = inside(field + 1, count - at - 1, depth);
        const uint8_t *name = *names;
        *names += 2 * (size_t)field->name_units;
        put_u32(to, field->code);
        if (field->code == TP_OBJECT) put_fields(to, field + 1, deeper, depth + 1, names);
        put_text(to, name, 2 * (size_t)field->name_units);
        at += 1 + deeper;
    }
}

/* The payload that defines an event under this id. */
static bool put_meta(bytes *to, uint32_t id, const definition *def) {
    size_t count = def->fields.length / sizeof(tp_field);
    if (!reserve(to, def->provider.length + def->name.length + def->names.length + 10 * count + 64)) return false;
    const uint8_t *names = def->names.data;
    put_u32(to, id);
    put_text(to, def->provider.data, def->provider.length);
    put_u32(to, def->numbers.id);
    put_text(to, def->name.data, def->name.length);
    put_u64(to, def->numbers.keywords);
    put_u32(to, def->numbers.version);
    put_u32(to, def->numbers.level);
    put_fields(to, (const tp_field *)def->fields.data, count, 0, &names);
    return true;
}

static bool is_text(const uint16_t *units, size_t count, size_t most) {
    if (count > most) return false;
    for (size_t at = 0; at < count; at++)
        if (!units[at]) return false;
    return true;
}

static bool are_fields(const tp_field *fields, size_t count, const uint16_t *names) {
    uint32_t most = 0;
    if (count > FIELDS) return false;
    for (size_t at = 0; at < count; names += fields[at++].name_units) {
        uint8_t code = fields[at].code;
        if (fields[at].depth > most || fields[at].depth > DEPTH || !code || code == 2 || code > TP_STRING
            || !is_text(names, fields[at].name_units, FIELD_UNITS))
            return false;
        most = fields[at].depth + (code == TP_OBJECT);
    }
    return true;
}

static bool is_same(const bytes *one, const void *data, size_t length) {
    return one->length == length && (!length || memcmp(one->data, data, length) == 0);
}

static bool copy(bytes *to, const void *data, size_t length) {
    if (length && !reserve(to, length)) return false;
    put(to, data, length);
    return true;
}

static void release(definition *def) {
    free(def->provider.data);
    free(def->name.data);
    free(def->fields.data);
    free(def->names.data);
}

static void close_stream(stream *it) {
    forget_stacks(it);
    for (size_t at = 0; at < it->definition_count; at++) release(&it->definitions[at]);
    free(it->definitions);
    free(it->threads);
    free(it->stacks);
    free(it->fresh.data);
    free(it->out.data);
    free(it);
}

uint32_t tp_begin(tp_handle *handle, const tp_info *info) {
    if (!handle || !info) return TP_NULL;
    if (handle->live) return TP_LIVE;
    stream *it = calloc(1, sizeof *it);
    if (!it) return TP_OUT_OF_MEMORY;
    if (!reserve(&it->out, 4096) || !reserve(&it->fresh, BODY_BYTES)) {
        close_stream(it);
        return TP_OUT_OF_MEMORY;
    }
    it->fresh.length = STACKS_BYTES;
    it->events.length = it->metadata.length = HEADER_BYTES;
    put(&it->out, "Nettrace", 8);
    put_u32(&it->out, 20);
    put(&it->out, "!FastSerialization.1", 20);
    begin_object(&it->out, 4, "Trace");
    put(&it->out, info->date, 16);
    put_u64(&it->out, info->sync);
    put_u64(&it->out, info->frequency);
    put_u32(&it->out, info->pointer_size);
    put_u32(&it->out, info->process_id);
    put_u32(&it->out, info->processors);
    put_u32(&it->out, info->rate);
    put(&it->out, "\6", 1);
    it->written = it->out.length;
    handle->at = it;
    handle->live = true;
    return TP_OK;
}

static uint32_t refusal(const tp_handle *handle) {
    if (!handle->live) return TP_NOT_LIVE;
    const stream *to = handle->at;
    return to->is_ended ? TP_ENDED : to->is_cut ? TP_CUT : TP_OK;
}

uint32_t tp_define(tp_handle *handle, const tp_definition *given, const uint16_t *provider, size_t provider_units,
                   const uint16_t *name, size_t name_units, const tp_field *fields, size_t fields_count,
                   const uint16_t *names, size_t names_units, uint32_t *number) {
    if (!handle || !given || !number || (!provider && provider_units) || (!name && name_units)
        || (!fields && fields_count) || (!names && names_units))
        return TP_NULL;
    uint32_t refused = refusal(handle);
    if (refused) return refused;
    stream *to = handle->at;
    size_t named = 0;
    for (size_t at = 0; at < fields_count; at++) {
        if (fields[at].name_units > names_units - named) return TP_BAD_NAMES;
        named += fields[at].name_units;
    }
    if (named != names_units) return TP_BAD_NAMES;
    if (!provider_units || !is_text(provider, provider_units, NAME_UNITS) || !is_text(name, name_units, NAME_UNITS)
        || !are_fields(fields, fields_count, names))
        return TP_BAD_DEFINITION;
    for (size_t at = 0; at < to->definition_count; at++) {
        definition *it = &to->definitions[at];
        if (it->numbers.keywords == given->keywords && it->numbers.id == given->id
            && it->numbers.version == given->version && it->numbers.level == given->level
            && is_same(&it->provider, provider, 2 * provider_units) && is_same(&it->name, name, 2 * name_units)
            && is_same(&it->fields, fields, fields_count * sizeof *fields)
            && is_same(&it->names, names, 2 * names_units)) {
            *number = (uint32_t)at + 1;
            return TP_OK;
        }
    }
    if (to->definition_count == DEFINITIONS) return TP_TOO_MANY_DEFINITIONS;
    if (!to->definitions && !(to->definitions = calloc(DEFINITIONS, sizeof *to->definitions))) return TP_OUT_OF_MEMORY;
    definition *next = &to->definitions[to->definition_count];
    memset(next, 0, sizeof *next);
    next->numbers = *given;
    if (!copy(&next->provider, provider, 2 * provider_units) || !copy(&next->name, name, 2 * name_units)
        || !copy(&next->fields, fields, fields_count * sizeof *fields) || !copy(&next->names, names, 2 * names_units)) {
        release(next);
        return TP_OUT_OF_MEMORY;
    }
    *number = (uint32_t)++to->definition_count;
    return TP_OK;
}

/* Makes room, and puts an event of which the definition or the stack is new, which has no id in the stream yet. */
static __attribute__((noinline)) bool put_new(stream *to, definition *def, const uint8_t *frames, size_t frames_bytes,
                                              head *now, const void *payload) {
    bytes meta = {0};
    stack *place = NULL;
    if (!def->id && !put_meta(&meta, (uint32_t)to->used + 1, def)) return false;
    if (frames_bytes && !now->stack) {
        uint8_t *copied = malloc(frames_bytes);
        if (!copied || (2 * (to->stack_count + 1) > to->stack_places && !widen_stacks(to))) {
            free(copied);
            free(meta.data);
            return false;
        }
        place = &to->stacks[slot_of(to->stacks, to->stack_places, frames, frames_bytes)];
        memcpy(copied, frames, frames_bytes);
        *place = (stack){copied, frames_bytes, 0};
    }
    if ((to->events.length + HEAD_BYTES + now->size > BODY_BYTES
         || (meta.data && to->metadata.length + HEAD_BYTES + meta.length > BODY_BYTES)
         || (place && to->fresh.length + 4 + frames_bytes > BODY_BYTES))
        && !flush(to)) {
        free(meta.data);
        return false;
    }
    if (place) {
        now->stack = place->id = (uint32_t)++to->stack_count;
        to->fresh_count++;
        put_u32(&to->fresh, (uint32_t)frames_bytes);
        put(&to->fresh, frames, frames_bytes);
    }
    if (meta.data) {
        head blob = {.size = (uint32_t)meta.length};
        put_blob(&to->metadata, 64, &blob, meta.data);
        def->id = (uint32_t)++to->used;
        free(meta.data);
    }
    now->metadata = def->id;
    put_blob(&to->events, 0, now, payload);
    return true;
}

/* Writes an event of a definition that is there, with this number of its thread. */
static bool write_event(stream *to, const tp_event_head *event, uint32_t number, const void *frames, size_t frames_bytes,
                        const void *payload, size_t payload_bytes) {
    definition *def = &to->definitions[event->event - 1];
    head now = {.metadata = def->id, .number = number, .size = (uint32_t)payload_bytes, .thread = event->thread,
                .stamp = event->stamp};
    memcpy(now.activity, event->activity, 16);
    memcpy(now.related, event->related, 16);
    if (frames_bytes) {
        to->framed++;
        if (to->stack_places) now.stack = to->stacks[slot_of(to->stacks, to->stack_places, frames, frames_bytes)].id;
    }
    if (!def->id || (frames_bytes && !now.stack)) return put_new(to, def, frames, frames_bytes, &now, payload);
    if (to->events.length + HEAD_BYTES + payload_bytes > BODY_BYTES && !flush(to)) return false;
    put_blob(&to->events, 0, &now, payload);
    return true;
}

uint32_t tp_event(tp_handle *handle, const tp_event_head *event, const void *frames, size_t frames_bytes,
                  const void *payload, size_t payload_bytes) {
    if (!handle || !event || (!frames && frames_bytes) || (!payload && payload_bytes)) return TP_NULL;
    uint32_t number, refused = refusal(handle);
    if (refused) return refused;
    stream *to = handle->at;
    if (!event->event || event->event > to->definition_count) return TP_NO_DEFINITION;
    if (frames_bytes > STACK_BYTES || frames_bytes % FRAME_BYTES) return TP_BAD_FRAMES;
    if (payload_bytes > PAYLOAD_BYTES) return TP_LONG_PAYLOAD;
    if (frames_bytes && to->framed == FRAMED) return TP_TOO_MANY_STACKS;
    refused = count(to, event->thread, &number);
    if (refused) return refused;
    to->is_cut = !write_event(to, event, number, frames, frames_bytes, payload, payload_bytes);
    return to->is_cut ? TP_CUT : TP_OK;
}

static int by_number(const void *one, const void *other) {
    uint64_t a = ((const thread *)one)->thread, b = ((const thread *)other)->thread;
    return (a > b) - (a < b);
}

static bool put_point(stream *to, uint64_t stamp) {
    thread *threads = malloc((to->thread_count + 1) * sizeof *threads);
    bytes body = {0};
    size_t count = 0;
    bool is_put = threads && reserve(&body, 12 * (to->thread_count + 1)) && flush(to);
    if (is_put) {
        for (size_t at = 0; at < to->thread_places; at++)
            if (to->threads[at].count) threads[count++] = to->threads[at];
        qsort(threads, count, sizeof *threads, by_number);
        put_u64(&body, stamp);
        put_u32(&body, (uint32_t)count);
        for (size_t at = 0; at < count; at++) {
            put_u64(&body, threads[at].thread);
            put_u32(&body, threads[at].count);
        }
        is_put = put_block(to, "SPBlock", body.data, body.length);
        forget_stacks(to);
    }
    free(threads);
    free(body.data);
    return is_put;
}

uint32_t tp_point(tp_handle *handle, uint64_t stamp) {
    if (!handle) return TP_NULL;
    uint32_t refused = refusal(handle);
    if (refused) return refused;
    stream *to = handle->at;
    to->is_cut = !put_point(to, stamp);
    return to->is_cut ? TP_CUT : TP_OK;
}

static size_t pull(stream *from, void *out, size_t most) {
    size_t left = from->out.length - from->pulled, moved = left < most ? left : most;
    if (moved) memcpy(out, from->out.data + from->pulled, moved);
    from->pulled += moved;
    if (from->pulled == from->out.length) from->out.length = from->pulled = 0;
    return moved;
}

uint32_t tp_pull(tp_handle *handle, void *out, size_t out_bytes, size_t *count) {
    if (!handle || !count || (!out && out_bytes)) return TP_NULL;
    if (!handle->live) return TP_NOT_LIVE;
    *count = pull(handle->at, out, out_bytes);
    return TP_OK;
}

uint32_t tp_end(tp_handle *handle, void *out, size_t out_bytes, size_t *count) {
    if (!handle || !count || (!out && out_bytes)) return TP_NULL;
    if (!handle->live) return TP_NOT_LIVE;
    stream *it = handle->at;
    if (!it->is_ended && !it->is_cut) {
        it->is_cut = !flush(it) || !reserve(&it->out, 1);
        if (!it->is_cut) put(&it->out, "\1", 1);
    }
    it->is_ended = true;
    *count = pull(it, out, out_bytes);
    if (it->pulled < it->out.length) return TP_MORE;
    uint32_t code = it->is_cut ? TP_CUT : TP_OK;
    close_stream(it);
    handle->live = false;
    return code;
}
