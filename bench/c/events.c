// The commands `events`, `events --json` and `convert chromium`, with these words, as one would write them by hand in C, for
// comparison: the same bytes from the same stream, where fields are numbers of four or eight bytes and names are plain.
#include "stream.h"

typedef struct {
    char *text;
    size_t size;
} Text;

// What is the same of each event of a definition, in the form that is written; and of those that are an end of a span.
typedef struct {
    Text front, span;
    uint32_t fields;
    struct {
        uint32_t code;
        Text name;
    } field[8];
} Definition;

static Definition *definitions;
static uint32_t definition_room;
static Text *stacks;
static uint32_t stack_room;
static char *out;
static size_t used, room;
static enum { LINES, JSON, CHROMIUM } form;
static int is_first = 1;
static char two_digits[100][2], two_hex[256][2];

static void make_room(size_t more) {
    if (room - used < more) out = again(out, room = 2 * room + more);
}

static void bytes(const char *text, size_t size) {
    memcpy(out + used, text, size);
    used += size;
}

#define WORD(text) bytes(text, sizeof text - 1)

static void put(const Text *text) { bytes(text->text, text->size); }

static size_t digits(char to[20], uint64_t number) {
    char text[20];
    size_t at = 20;
    for (; number >= 100; number /= 100) memcpy(text + (at -= 2), two_digits[number % 100], 2);
    if (number >= 10) memcpy(text + (at -= 2), two_digits[number], 2);
    else text[--at] = '0' + number;
    memcpy(to, text + at, 20 - at);
    return 20 - at;
}

static void plain(uint64_t number) { used += digits(out + used, number); }

// A number behind a space, in ten places at least.
static void in_places(uint64_t number) {
    char text[20];
    size_t size = digits(text, number);
    out[used++] = ' ';
    for (size_t i = size; i < 10; i++) out[used++] = ' ';
    bytes(text, size);
}

// A number, or its text where a double may not hold it.
static void exact(uint64_t number) {
    if (number < 1ull << 53) {
        plain(number);
        return;
    }
    out[used++] = '"';
    plain(number);
    out[used++] = '"';
}

static void hex(const uint8_t *from, size_t size) {
    for (size_t i = 0; i < size; i++) bytes(two_hex[from[i]], 2);
}

static void uuid(const uint8_t id[16]) {
    const uint8_t front[8] = {id[3], id[2], id[1], id[0], id[5], id[4], id[7], id[6]};
    hex(front, 4);
    out[used++] = '-';
    hex(front + 4, 2);
    out[used++] = '-';
    hex(front + 6, 2);
    out[used++] = '-';
    hex(id + 8, 2);
    out[used++] = '-';
    hex(id + 10, 6);
}

// What begins an object of a file, up to what tells when it was.
static void begin_object(void) {
    if (!is_first) WORD(",");
    is_first = 0;
    WORD("\n");
}

// When it was, in microseconds, and the process.
static void moment(uint64_t stamp) {
    unsigned __int128 nanoseconds = stamp;
    if (frequency) nanoseconds = nanoseconds * 1000000000 / frequency;
    uint32_t rest = nanoseconds % 1000;
    WORD(",\"ts\":");
    plain(nanoseconds / 1000);
    out[used++] = '.';
    out[used++] = '0' + rest / 100;
    bytes(two_digits[rest % 100], 2);
    WORD(",\"pid\":");
    plain(trace_info[1]);
}

static void write_out(void) {
    fwrite(out, 1, used, stdout);
    used = 0;
}

static void lost(uint64_t thread, uint32_t count, uint64_t stamp) {
    if (!count) return;
    make_room(200);
    if (form == CHROMIUM) {
        begin_object();
        WORD("{\"name\":\"lost\",\"ph\":\"C\",\"id\":");
        exact(thread);
        moment(stamp);
        WORD(",\"tid\":");
        exact(thread);
        WORD(",\"args\":{\"count\":");
        plain(count);
        WORD("}}");
    } else if (form == JSON) {
        WORD("{\"kind\":\"lost\",\"thread\":");
        exact(thread);
        WORD(",\"count\":");
        plain(count);
        WORD("}\n");
    } else {
        WORD("lost");
        in_places(thread);
        in_places(count);
        WORD("\n");
    }
}

// The value of a field, if it stands there.
static int value(const uint8_t **at, const uint8_t *end, uint32_t code) {
    size_t size = code < 11 ? 4 : 8;
    if (code < 9 || code > 12 || (size_t)(end - *at) < size) return 0;
    uint64_t number = size == 8 ? number64(*at) : code == 9 ? (uint64_t)(int32_t)number32(*at) : number32(*at);
    *at += size;
    if (code % 2 && (int64_t)number < 0) {
        out[used++] = '-';
        number = -number;
    }
    if (form == LINES) plain(number);
    else exact(number);
    return 1;
}

static void fields(const Definition *definition, const uint8_t *at, const uint8_t *end) {
    size_t start = used;
    const uint8_t *payload = at;
    int fits = 1;
    for (uint32_t i = 0; i < definition->fields && fits; i++) {
        put(&definition->field[i].name);
        fits = value(&at, end, definition->field[i].code);
    }
    if (fits && at == end) return;
    used = start;
    if (form != LINES) refuse();
    WORD(" payload=");
    hex(payload, end - payload);
}

static void take_event(const Head *now, const uint8_t *payload) {
    if (now->metadata >= definition_room || !definitions[now->metadata].front.text) refuse();
    const Definition *definition = &definitions[now->metadata];
    if (now->stack && (now->stack >= stack_room || !stacks[now->stack].text)) refuse();
    Thread *thread = thread_of(now->capture);
    lost(now->capture, now->number - (thread->last + 1), now->stamp);
    thread->last = now->number;
    make_room(2048 + 2 * now->size + (now->stack ? stacks[now->stack].size : 0));
    if (form == CHROMIUM) {
        begin_object();
        if (definition->span.text && memcmp(now->activity, (uint8_t[16]){0}, 16)) {
            put(&definition->span);
            uuid(now->activity);
            WORD("\"");
        } else {
            put(&definition->front);
        }
        moment(now->stamp);
        WORD(",\"tid\":");
        exact(now->capture);
        WORD(",\"args\":{\"number\":");
        plain(now->number);
        WORD(",\"fields\":{");
        fields(definition, payload, payload + now->size);
        WORD("}}}");
    } else if (form == JSON) {
        WORD("{\"kind\":\"event\",\"stamp\":");
        exact(now->stamp);
        WORD(",\"thread\":");
        exact(now->capture);
        WORD(",\"number\":");
        plain(now->number);
        WORD(",\"processor\":");
        plain(now->processor);
        WORD(",\"thread_id\":");
        exact(now->thread);
        put(&definition->front);
        WORD(",\"activity\":\"");
        uuid(now->activity);
        WORD("\",\"related\":\"");
        uuid(now->related);
        WORD("\",\"stack\":[");
        if (now->stack) put(&stacks[now->stack]);
        WORD("],\"fields\":{");
        fields(definition, payload, payload + now->size);
        WORD("}}\n");
    } else {
        WORD("event");
        in_places(now->stamp);
        in_places(now->capture);
        in_places(now->number);
        put(&definition->front);
        fields(definition, payload, payload + now->size);
        WORD("\n");
    }
    if (used > 60000) write_out();
}

// Appends a name of plain characters.
static size_t plain_name(char *to, const uint8_t *units, size_t size) {
    for (size_t i = 0; i < size; i += 2) {
        if (units[i] < 33 || units[i] > 126 || units[i + 1] || strchr("\\\"<=", units[i])) refuse();
        to[i / 2] = units[i];
    }
    return size / 2;
}

// Appends the name and the category of an object of a file.
static char *named(char *to, const uint8_t *provider, size_t provider_size, const uint8_t *name, size_t name_size) {
    to += sprintf(to, "{\"name\":\"");
    to += plain_name(to, name, name_size);
    to += sprintf(to, "\",\"cat\":\"");
    to += plain_name(to, provider, provider_size);
    return to + sprintf(to, "\",");
}

// What begins the object of an end of a span.
static Text span_of(char phase, const uint8_t *provider, size_t provider_size, const uint8_t *name, size_t name_size) {
    Text span = {.text = again(NULL, provider_size + name_size + 200)};
    char *to = named(span.text, provider, provider_size, name, name_size);
    span.size = to + sprintf(to, "\"ph\":\"%c\",\"id\":\"", phase) - span.text;
    return span;
}

static void take_definition(const uint8_t *at, const uint8_t *end) {
    uint32_t id = number32(at);
    const uint8_t *provider = at + 4;
    size_t provider_size = text_size(provider, end);
    uint32_t event = number32(provider + provider_size + 2);
    const uint8_t *name = provider + provider_size + 6;
    size_t name_size = text_size(name, end);
    at = name + name_size + 2;
    uint64_t keywords = number64(at);
    uint32_t version = number32(at + 8), level = number32(at + 12), count = number32(at + 16);
    at += 20;
    definitions = reach(definitions, &definition_room, id, sizeof *definitions);
    Definition *now = &definitions[id];
    if (now->front.text || count > 8) refuse();
    char *to = now->front.text = again(NULL, provider_size + name_size + 200);
    if (form == CHROMIUM) {
        size_t stem = name_size / 2;
        if (stem >= 5 && !memcmp(name + 2 * (stem - 5), "S\0t\0a\0r\0t", 10)) now->span = span_of('b', provider, provider_size, name, 2 * (stem - 5));
        else if (stem >= 4 && !memcmp(name + 2 * (stem - 4), "S\0t\0o\0p", 8)) now->span = span_of('e', provider, provider_size, name, 2 * (stem - 4));
        to = named(to, provider, provider_size, name, name_size);
        to += sprintf(to, "\"ph\":\"i\",\"s\":\"t\"");
    } else {
        to += sprintf(to, form == JSON ? ",\"provider\":\"" : " ");
        to += plain_name(to, provider, provider_size);
        to += sprintf(to, form == JSON ? "\",\"name\":\"" : " ");
        to += plain_name(to, name, name_size);
        if (form == JSON) to += sprintf(to, "\",\"id\":%u,\"version\":%u,\"level\":%u,\"keywords\":%lu", event, version, level, keywords);
    }
    now->front.size = to - now->front.text;
    now->fields = count;
    for (uint32_t i = 0; i < count; i++) {
        size_t size = text_size(at + 4, end);
        now->field[i].code = number32(at);
        to = now->field[i].name.text = again(NULL, size + 8);
        to += sprintf(to, form == LINES ? " " : i ? ",\"" : "\"");
        to += plain_name(to, at + 4, size);
        to += sprintf(to, form == LINES ? "=" : "\":");
        now->field[i].name.size = to - now->field[i].name.text;
        at += 4 + size + 2;
    }
}

static void take_stack(uint32_t id, const uint8_t *frames, size_t size) {
    stacks = reach(stacks, &stack_room, id, sizeof *stacks);
    char *to = again(stacks[id].text, 3 * size + 1);
    stacks[id].text = to;
    for (size_t i = 0; i + 8 <= size; i += 8) to += sprintf(to, i ? ",\"%016lx\"" : "\"%016lx\"", number64(frames + i));
    stacks[id].size = to - stacks[id].text;
}

static void take_point(const uint8_t *at, uint32_t count, uint64_t stamp) {
    for (uint32_t i = 0; i < count; i++) {
        Thread *thread = thread_of(number64(at + 12 * i));
        uint32_t number = number32(at + 12 * i + 8);
        lost(thread->thread, number - thread->last, stamp);
        thread->last = number;
    }
    make_room(100 + 60 * count);
    if (form == CHROMIUM) {
        begin_object();
        WORD("{\"name\":\"point\",\"ph\":\"i\",\"s\":\"p\"");
        moment(stamp);
        WORD(",\"args\":{\"threads\":");
        plain(count);
        WORD("}}");
    } else if (form == JSON) {
        WORD("{\"kind\":\"point\",\"stamp\":");
        exact(stamp);
        WORD(",\"threads\":[");
        for (uint32_t i = 0; i < count; i++) {
            if (i) WORD(",");
            WORD("{\"thread\":");
            exact(number64(at + 12 * i));
            WORD(",\"number\":");
            plain(number32(at + 12 * i + 8));
            WORD("}");
        }
        WORD("]}\n");
    } else {
        WORD("point");
        in_places(stamp);
        in_places(count);
        WORD("\n");
    }
    for (uint32_t id = 0; id < stack_room; id++) {
        free(stacks[id].text);
        stacks[id] = (Text){0};
    }
}

int main(int words, char **word) {
    if (words > 2) form = strcmp(word[2], "chromium") ? JSON : CHROMIUM;
    for (int i = 0; i < 100; i++) memcpy(two_digits[i], (char[]){'0' + i / 10, '0' + i % 10}, 2);
    for (int i = 0; i < 256; i++) memcpy(two_hex[i], (char[]){"0123456789abcdef"[i / 16], "0123456789abcdef"[i % 16]}, 2);
    make_room(1000);
    if (form == CHROMIUM) WORD("{\"displayTimeUnit\":\"ns\",\"traceEvents\":[");
    read_stream();
    make_room(1000);
    if (form == CHROMIUM) WORD("\n]}\n");
    write_out();
}
