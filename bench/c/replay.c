// The command `replay`, as one would write it by hand in C, for comparison: the same bytes of session 1 from the same
// schedule, where no line is wrong. It judges each word and each step, keeps what threads write in the chunks of each
// session's budget, and writes the streams of all sessions; a schedule that is refused ends it with status 3 and no line
// that says why. With the word `alone` it keeps and writes of session 1 alone. It knows the lines `event`, `accept`,
// `open`, `begin`, `show`, `end`, `steal`, `give`, `close`, `point` and `finish`, sessions up to 64 and threads up to 256.
#include <stdint.h>
#include <stdio.h>
#include <stdlib.h>
#include <string.h>
#include <unistd.h>

enum { EVENTS = 1000, SESSIONS = 64, THREADS = 256, RULES = 1000, FRAMES = 100, PAYLOAD = 60000 };
enum { CHUNK = 65536, RECORD = 68, BODY = 102400, HEAD = 88, START = 20, LINE = 262144 };

typedef struct {
    char *text;
    size_t size;
} Text;

typedef struct {
    Text provider;
    uint32_t level;
    uint64_t keywords;
    uint8_t *definition;
    size_t size;
} Event;

typedef struct Chunk {
    struct Chunk *next;
    size_t filled;
    uint8_t bytes[CHUNK];
} Chunk;

// What a session has of one thread.
typedef struct {
    Chunk *first, *last;
    uint32_t number, told;
    uint8_t was_opened, is_open;
} Slot;

typedef struct {
    uint32_t metadata, number, stack, size;
    uint64_t capture, thread, stamp;
    uint8_t ids[32];
} Head;

typedef struct {
    uint8_t *bytes;
    size_t size, room;
} Bytes;

typedef struct {
    uint8_t bytes[BODY + START];
    size_t size;
    uint64_t least, greatest;
    Head last;
} Body;

typedef struct {
    uint32_t number, is_kept, open_count;
    size_t chunks, held, handed;
    Slot slots[THREADS];
    uint8_t opened[THREADS];
    size_t opened_count;
    Bytes stream;
    Body events, definitions, stacks;
    uint32_t ids[EVENTS + 1], last_id, last_stack, first_new_stack, new_stacks;
    Bytes frames;
    struct {
        size_t at, size;
        uint32_t id;
    } *table;
    size_t table_size;
} Session;

typedef struct {
    uint64_t due, open, masks[EVENTS + 1];
    uint64_t stamp;
    uint8_t ids[32];
    uint32_t event, frame_count, size;
    uint8_t frames[8 * FRAMES], payload[PAYLOAD];
    uint8_t is_writing;
} Row;

static Event events[EVENTS + 1];
static uint32_t event_count, last_session;
static int has_steps, is_alone;
static Session *sessions[SESSIONS];
static uint8_t place_of_number[SESSIONS + 1];
static Row rows[THREADS];
static uint8_t hex[256];
static Bytes answer;

static void refuse(void) { exit(3); }

static void *again(void *old, size_t size) {
    void *new = realloc(old, size);
    if (!new) exit(9);
    return new;
}

static void room_for(Bytes *to, size_t more) {
    if (to->room - to->size < more) to->bytes = again(to->bytes, to->room = 2 * to->room + more);
}

static void put(Bytes *to, const void *from, size_t size) {
    room_for(to, size);
    memcpy(to->bytes + to->size, from, size);
    to->size += size;
}

static void put32(Bytes *to, uint32_t number) { put(to, &number, 4); }

static void put_text(Bytes *to, Text text) {
    for (size_t i = 0; i < text.size; i++) put(to, (char[]){text.text[i], 0}, 2);
    put(to, "\0", 2);
}

// The words of a line.

static const char *at, *end;

static void skip(void) {
    if (at == end || *at != ' ') refuse();
    at++;
}

static uint64_t number(uint64_t most) {
    const char *begun = at;
    uint64_t value = 0;
    for (; at < end && (uint8_t)(*at - '0') < 10; at++) {
        unsigned digit = *at - '0';
        if (value > (most - digit) / 10) refuse();
        value = 10 * value + digit;
    }
    if (at == begun || at - begun > 20) refuse();
    return value;
}

static uint64_t hex_number(void) {
    const char *begun = at;
    uint64_t value = 0;
    for (; at < end && hex[(uint8_t)*at] < 16; at++) value = value << 4 | hex[(uint8_t)*at];
    if (at == begun || at - begun > 16) refuse();
    return value;
}

// Pairs of digits up to the word's end.
static uint32_t hex_bytes(uint8_t *to, size_t most) {
    uint32_t size = 0;
    if (end - at == 1 ? *at == '-' : end - at > 1 && at[0] == '-' && at[1] == ' ') return at++, 0;
    for (; end - at >= 2 && (hex[(uint8_t)at[0]] | hex[(uint8_t)at[1]]) < 16; at += 2) {
        if (size == most) refuse();
        to[size++] = hex[(uint8_t)at[0]] << 4 | hex[(uint8_t)at[1]];
    }
    if (!size || (at < end && *at != ' ')) refuse();
    return size;
}

static void id(uint8_t *to) {
    uint32_t size = hex_bytes(to, 16);
    if (!size) memset(to, 0, 16);
    else if (size != 16) refuse();
}

static Text word(char until) {
    const char *begun = at;
    while (at < end && *at != ' ' && *at != until) {
        if ((uint8_t)*at < 33 || (uint8_t)*at > 126) refuse();
        at++;
    }
    if (at == begun) refuse();
    Text text = {again(NULL, at - begun), at - begun};
    memcpy(text.text, begun, text.size);
    return text;
}

static int is_same(Text one, Text other) { return one.size == other.size && !memcmp(one.text, other.text, one.size); }

static Session *session(void) {
    uint64_t given = number(UINT32_MAX);
    if (given == 0 || given > SESSIONS || !place_of_number[given]) refuse();
    return sessions[place_of_number[given] - 1];
}

static uint32_t thread(void) {
    uint64_t given = number(UINT32_MAX);
    if (given == 0 || given > THREADS) refuse();
    return given - 1;
}

// A session's stream.

static uint8_t *varuint(uint8_t *to, uint64_t number) {
    for (; number >= 128; number >>= 7) *to++ = number | 128;
    *to++ = number;
    return to;
}

static void begin_object(Bytes *to, uint32_t version, const char *name) {
    put(to, "\5\5\1", 3);
    put32(to, version);
    put32(to, version);
    put32(to, strlen(name));
    put(to, name, strlen(name));
    put(to, "\6", 1);
}

static void put_block(Bytes *to, const char *name, const void *body, size_t size) {
    begin_object(to, 2, name);
    put32(to, size);
    put(to, "\0\0\0", -to->size & 3);
    put(to, body, size);
    put(to, "\6", 1);
}

static void put_start(Bytes *to) {
    put(to, "Nettrace\x14\0\0\0!FastSerialization.1", 32);
    begin_object(to, 4, "Trace");
    put(to, (uint16_t[]){1970, 1, 4, 1, 0, 0, 0, 0}, 16);
    put(to, (uint64_t[]){0, 1000000000}, 16);
    put(to, (uint32_t[]){8, 1, 1, 0}, 16);
    put(to, "\6", 1);
}

static void put_body(Bytes *to, const char *name, Body *body) {
    if (body->size == START) return;
    memcpy(body->bytes, "\24\0\1\0", 4);
    memcpy(body->bytes + 4, &body->least, 8);
    memcpy(body->bytes + 12, &body->greatest, 8);
    put_block(to, name, body->bytes, body->size);
    memset(&body->last, 0, sizeof body->last);
    body->size = START;
}

static void flush(Session *of) {
    put_body(&of->stream, "MetadataBlock", &of->definitions);
    if (of->new_stacks) {
        memcpy(of->stacks.bytes, &of->first_new_stack, 4);
        memcpy(of->stacks.bytes + 4, &of->new_stacks, 4);
        put_block(&of->stream, "StackBlock", of->stacks.bytes, of->stacks.size);
        of->new_stacks = 0;
        of->stacks.size = 8;
    }
    put_body(&of->stream, "EventBlock", &of->events);
}

static uint32_t stack_id(Session *of, const uint8_t *frames, size_t size, int *is_new) {
    if (2 * (of->last_stack + 1) > of->table_size) {
        size_t old_size = of->table_size;
        of->table_size = old_size ? 2 * old_size : 64;
        __typeof__(of->table) old = of->table;
        of->table = calloc(of->table_size, sizeof *of->table);
        if (!of->table) exit(9);
        for (size_t i = 0; i < old_size; i++) {
            if (!old[i].id) continue;
            uint64_t hash = 0, part;
            for (size_t j = 0; j < old[i].size; j += 8)
                memcpy(&part, of->frames.bytes + old[i].at + j, 8), hash = (hash ^ part) * 0x9E3779B97F4A7C15u;
            size_t place = hash >> 32 & (of->table_size - 1);
            while (of->table[place].id) place = (place + 1) & (of->table_size - 1);
            of->table[place] = old[i];
        }
        free(old);
    }
    uint64_t hash = 0, part;
    for (size_t j = 0; j < size; j += 8) memcpy(&part, frames + j, 8), hash = (hash ^ part) * 0x9E3779B97F4A7C15u;
    size_t place = hash >> 32 & (of->table_size - 1);
    for (; of->table[place].id; place = (place + 1) & (of->table_size - 1))
        if (of->table[place].size == size && !memcmp(of->frames.bytes + of->table[place].at, frames, size))
            return *is_new = 0, of->table[place].id;
    of->table[place].at = of->frames.size;
    of->table[place].size = size;
    of->table[place].id = ++of->last_stack;
    put(&of->frames, frames, size);
    return *is_new = 1, of->last_stack;
}

static void define(Session *of, const Event *event, uint32_t metadata) {
    Body *body = &of->definitions;
    uint8_t *flags = body->bytes + body->size, *to = flags + 1;
    *flags = 64;
    *to++ = 0;
    if (event->size + 4 != body->last.size) *flags |= 128, to = varuint(to, event->size + 4);
    memcpy(to, &metadata, 4);
    memcpy(to + 4, event->definition, event->size);
    body->last.size = event->size + 4;
    body->least = body->greatest = 0;
    body->size = to + 4 + event->size - body->bytes;
}

static void put_event(Session *of, const uint8_t *record) {
    uint32_t parts[5], metadata, stack = 0;
    memcpy(parts, record, sizeof parts);
    const uint8_t *frames = record + RECORD;
    size_t frame_bytes = 8 * (size_t)parts[3], size = parts[4];
    const Event *event = &events[parts[1]];
    int is_new = 0;
    metadata = of->ids[parts[1]];
    if (of->events.size + HEAD + size > BODY) flush(of);
    if (!metadata) {
        if (of->definitions.size + HEAD + event->size + 4 > BODY) flush(of);
        of->ids[parts[1]] = metadata = ++of->last_id;
        define(of, event, metadata);
    }
    if (frame_bytes) {
        if (of->stacks.size + 4 + frame_bytes > BODY) flush(of);
        stack = stack_id(of, frames, frame_bytes, &is_new);
        if (is_new) {
            if (!of->new_stacks++) of->first_new_stack = stack;
            memcpy(of->stacks.bytes + of->stacks.size, &(uint32_t){frame_bytes}, 4);
            memcpy(of->stacks.bytes + of->stacks.size + 4, frames, frame_bytes);
            of->stacks.size += 4 + frame_bytes;
        }
    }
    Body *body = &of->events;
    Head *last = &body->last;
    uint64_t thread, stamp;
    memcpy(&thread, record + 20, 8);
    memcpy(&stamp, record + 28, 8);
    uint8_t *flags = body->bytes + body->size, *to = flags + 1;
    *flags = 0;
    if (metadata != last->metadata) *flags |= 1, to = varuint(to, last->metadata = metadata);
    if (parts[2] != last->number + 1 || thread != last->capture) {
        *flags |= 2;
        to = varuint(to, parts[2] - last->number - 1);
        to = varuint(to, last->capture = thread);
        *to++ = 0;
    }
    last->number = parts[2];
    if (thread != last->thread) *flags |= 4, to = varuint(to, last->thread = thread);
    if (stack != last->stack) *flags |= 8, to = varuint(to, last->stack = stack);
    to = varuint(to, stamp - last->stamp);
    last->stamp = stamp;
    for (int i = 0; i < 2; i++) {
        if (!memcmp(record + 36 + 16 * i, last->ids + 16 * i, 16)) continue;
        *flags |= 16 << i;
        memcpy(last->ids + 16 * i, record + 36 + 16 * i, 16);
        memcpy(to, record + 36 + 16 * i, 16);
        to += 16;
    }
    if (size != last->size) *flags |= 128, to = varuint(to, last->size = size);
    memcpy(to, frames + frame_bytes, size);
    if (body->size == START || stamp < body->least) body->least = stamp;
    if (body->size == START || stamp > body->greatest) body->greatest = stamp;
    body->size = to + size - body->bytes;
}

static void put_point(Session *of, uint64_t stamp) {
    if (!of->is_kept) return;
    static Bytes body;
    flush(of);
    body.size = 0;
    put(&body, &stamp, 8);
    put32(&body, of->opened_count);
    size_t left = 0;
    for (size_t i = 0; i < of->opened_count; i++) {
        Slot *slot = &of->slots[of->opened[i]];
        put(&body, &(uint64_t){of->opened[i] + 1}, 8);
        put32(&body, slot->told);
        if (slot->is_open) of->opened[left++] = of->opened[i];
    }
    of->opened_count = left;
    put_block(&of->stream, "SPBlock", body.bytes, body.size);
    of->last_stack = 0;
    of->frames.size = 0;
    if (of->table) memset(of->table, 0, of->table_size * sizeof *of->table);
}

// What a session takes of a thread is put into its stream; the chunks are free again once they are given back.
static void take(Session *of, Slot *slot) {
    if (of->handed) refuse();
    slot->told = slot->number;
    for (Chunk *chunk = slot->first, *next; chunk; chunk = next) {
        uint32_t size;
        for (size_t i = 0; i < chunk->filled; i += size) {
            put_event(of, chunk->bytes + i);
            memcpy(&size, chunk->bytes + i, 4);
        }
        of->handed++;
        next = chunk->next;
        free(chunk);
    }
    slot->first = slot->last = NULL;
}

// The lines.

static void take_event(void) {
    if (has_steps || event_count == EVENTS || number(UINT32_MAX) != event_count + 1) refuse();
    Event *event = &events[++event_count];
    Bytes bytes = {0};
    skip();
    event->provider = word(':');
    skip();
    uint32_t id = number(UINT32_MAX);
    skip();
    uint32_t version = number(UINT32_MAX);
    skip();
    event->level = number(UINT32_MAX);
    skip();
    event->keywords = hex_number();
    skip();
    Text name = word(':');
    if (name.size == 1 && name.text[0] == '-') name.size = 0;
    skip();
    put_text(&bytes, event->provider);
    put32(&bytes, id);
    put_text(&bytes, name);
    put(&bytes, &event->keywords, 8);
    put32(&bytes, version);
    put32(&bytes, event->level);
    size_t count_at = bytes.size;
    uint32_t count = 0;
    put32(&bytes, 0);
    if (end - at == 1 && *at == '-') at++;
    else for (;;) {
        Text field = word(':');
        if (at == end || *at++ != ':') refuse();
        put32(&bytes, number(UINT32_MAX));
        put_text(&bytes, field);
        count++;
        if (at == end) break;
        if (*at++ != ',') refuse();
    }
    memcpy(bytes.bytes + count_at, &count, 4);
    event->definition = bytes.bytes;
    event->size = bytes.size;
}

static uint64_t wanted[SESSIONS][(EVENTS + 64) / 64];

static void take_accept(void) {
    uint64_t given = number(UINT32_MAX);
    if (given <= last_session || given > SESSIONS) refuse();
    skip();
    uint32_t chunks = number(UINT32_MAX), place = 0;
    if (chunks == 0 || chunks > 16384) refuse();
    while (place < SESSIONS && sessions[place]) place++;
    if (place == SESSIONS) refuse();
    Session *new = calloc(1, sizeof *new);
    if (!new) exit(9);
    memset(wanted[place], 0, sizeof wanted[place]);
    for (int rules = 0; rules == 0 || at < end; rules++) {
        skip();
        if (rules == RULES) refuse();
        Text name = word(':');
        if (at == end || *at++ != ':') refuse();
        uint64_t keywords = hex_number();
        if (at == end || *at++ != ':') refuse();
        uint32_t level = number(UINT32_MAX);
        for (uint32_t e = 1; e <= event_count; e++)
            if (is_same(events[e].provider, name) && (!events[e].keywords || events[e].keywords & keywords)
                && (!events[e].level || events[e].level <= level))
                wanted[place][e / 64] |= 1ull << e % 64;
        free(name.text);
    }
    new->number = last_session = given;
    new->chunks = chunks;
    new->is_kept = given == 1 || !is_alone;
    new->events.size = new->definitions.size = START;
    new->stacks.size = 8;
    if (new->is_kept) put_start(&new->stream);
    sessions[place] = new;
    place_of_number[given] = place + 1;
}

static void take_open(void) {
    Session *of = session();
    skip();
    uint32_t on = thread(), place = place_of_number[of->number] - 1;
    Slot *slot = &of->slots[on];
    if (slot->was_opened || rows[on].is_writing) refuse();
    slot->was_opened = slot->is_open = 1;
    of->opened[of->opened_count++] = on;
    of->open_count++;
    rows[on].open |= 1ull << place;
    for (uint32_t e = 1; e <= event_count; e++)
        if (wanted[place][e / 64] >> e % 64 & 1) rows[on].masks[e] |= 1ull << place;
}

static void take_close(void) {
    Session *of = session();
    skip();
    uint32_t on = thread();
    uint64_t bit = 1ull << (place_of_number[of->number] - 1);
    Slot *slot = &of->slots[on];
    if (!slot->is_open || rows[on].is_writing) refuse();
    take(of, slot);
    slot->is_open = 0;
    of->open_count--;
    rows[on].open &= ~bit;
    for (uint32_t e = 1; e <= event_count; e++) rows[on].masks[e] &= ~bit;
}

static void take_begin(void) {
    Row *row = &rows[thread()];
    skip();
    if (row->is_writing) refuse();
    row->stamp = number(UINT64_MAX);
    skip();
    row->event = number(UINT32_MAX);
    if (row->event == 0 || row->event > event_count) refuse();
    skip();
    id(row->ids);
    skip();
    id(row->ids + 16);
    skip();
    row->frame_count = 0;
    if (end - at > 1 && at[0] == '-' && at[1] == ' ') at++;
    else for (;; at++) {
        if (row->frame_count == FRAMES) refuse();
        uint64_t frame = hex_number();
        memcpy(row->frames + 8 * row->frame_count++, &frame, 8);
        if (at == end || *at != ',') break;
    }
    skip();
    row->size = hex_bytes(row->payload, PAYLOAD);
    row->is_writing = 1;
    row->due = row->masks[row->event];
}

static void take_show(void) {
    uint32_t on = thread();
    Row *row = &rows[on];
    skip();
    Session *of = session();
    uint64_t bit = 1ull << (place_of_number[of->number] - 1);
    if (!row->is_writing || !(row->due & bit)) refuse();
    row->due &= ~bit;
    if (!of->is_kept) return;
    Slot *slot = &of->slots[on];
    uint32_t size = RECORD + 8 * row->frame_count + row->size, number = ++slot->number;
    Chunk *chunk = slot->last;
    if (!chunk || CHUNK - chunk->filled < size) {
        if (of->held == of->chunks) return;
        of->held++;
        chunk = again(NULL, sizeof *chunk);
        chunk->next = NULL;
        chunk->filled = 0;
        if (slot->last) slot->last->next = chunk;
        else slot->first = chunk;
        slot->last = chunk;
    }
    uint8_t *to = chunk->bytes + chunk->filled;
    memcpy(to, (uint32_t[]){size, row->event, number, row->frame_count, row->size}, 20);
    memcpy(to + 20, &(uint64_t){on + 1}, 8);
    memcpy(to + 28, &row->stamp, 8);
    memcpy(to + 36, row->ids, 32);
    memcpy(to + RECORD, row->frames, 8 * row->frame_count);
    memcpy(to + RECORD + 8 * row->frame_count, row->payload, row->size);
    chunk->filled += size;
}

static void take_finish(void) {
    Session *of = session();
    skip();
    uint64_t stamp = number(UINT64_MAX);
    if (of->open_count || of->handed) refuse();
    put_point(of, stamp);
    put(&of->stream, "\1", 1);
    if (of->number == 1) answer = of->stream;
    else free(of->stream.bytes);
    sessions[place_of_number[of->number] - 1] = NULL;
    place_of_number[of->number] = 0;
    free(of->frames.bytes);
    free(of->table);
    free(of);
}

static int is_verb(const char *verb, size_t size) {
    if ((size_t)(end - at) <= size || memcmp(at, verb, size) || at[size] != ' ') return 0;
    at += size + 1;
    return 1;
}

#define IS_VERB(verb) is_verb(verb, sizeof verb - 1)

static void take_line(void) {
    if (at == end || *at == '#') return;
    if (IS_VERB("event")) return take_event();
    has_steps = 1;
    if (IS_VERB("begin")) take_begin();
    else if (IS_VERB("show")) take_show();
    else if (IS_VERB("end")) {
        Row *row = &rows[thread()];
        if (!row->is_writing || row->due) refuse();
        row->is_writing = 0;
    } else if (IS_VERB("steal")) {
        Session *of = session();
        skip();
        Slot *slot = &of->slots[thread()];
        if (!slot->is_open) refuse();
        take(of, slot);
    } else if (IS_VERB("give")) {
        Session *of = session();
        of->held -= of->handed;
        of->handed = 0;
    } else if (IS_VERB("accept")) take_accept();
    else if (IS_VERB("open")) take_open();
    else if (IS_VERB("close")) take_close();
    else if (IS_VERB("point")) {
        Session *of = session();
        skip();
        put_point(of, number(UINT64_MAX));
    } else if (IS_VERB("finish")) take_finish();
    else refuse();
    if (at != end) refuse();
}

int main(int argc, char **argv) {
    static char input[LINE + 65536];
    size_t filled = 0;
    is_alone = argc == 2 && !strcmp(argv[1], "alone");
    memset(hex, 255, sizeof hex);
    for (int i = 0; i < 16; i++) hex[(uint8_t)"0123456789abcdef"[i]] = hex[(uint8_t)"0123456789ABCDEF"[i]] = i;
    for (ssize_t got = 1; got > 0;) {
        if (filled > LINE) refuse();
        got = read(0, input + filled, sizeof input - filled < 32768 ? sizeof input - filled : 32768);
        if (got < 0) return 4;
        filled += got;
        const char *from = input, *stop = input + filled, *line_end;
        while ((line_end = memchr(from, '\n', stop - from)) || (got == 0 && from < stop)) {
            if (!line_end) line_end = stop;
            at = from;
            end = line_end;
            take_line();
            from = line_end < stop ? line_end + 1 : stop;
        }
        filled = stop - from;
        memmove(input, from, filled);
    }
    if (!answer.size) refuse();
    for (size_t sent = 0; sent < answer.size;) {
        ssize_t now = write(1, answer.bytes + sent, answer.size - sent);
        if (now <= 0) return 4;
        sent += now;
    }
    return 0;
}
