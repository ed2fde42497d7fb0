/*
 * Writes .nettrace streams (NetTrace, version 4): the format of `dotnet-trace`, PerfView and `tracepipe report`.
 *
 * A program begins a stream, gives its definitions of events, writes events, and pulls the bytes whenever it likes: they
 * go to a file, a pipe or a socket while the stream is made. It ends the stream and pulls the rest. What was pulled, in
 * order, is the one canonical stream of exactly the events and points that were taken.
 *
 * Memory: a stream keeps its definitions, a count for each thread, at most 102,400 bytes of events with their stacks and
 * definitions, and what was made and not pulled yet. It comes from malloc and is freed by the last tp_end. Nothing that
 * is passed is kept: the library copies what it needs.
 *
 * Threads: one call at a time on a handle, whichever thread makes it: hold a mutex round each call where several threads
 * write to one stream. Calls on different handles may run at once. No call blocks, starts a thread or reads a clock. None
 * may be made in a signal handler, nor in a forked child of a process that has several threads.
 *
 * Pointers: a length says how much stands at its pointer. A pointer may be NULL where its length is 0; elsewhere NULL is
 * answered by TP_NULL. A handle is not copied while it is live.
 */
#ifndef TRACEPIPE_H
#define TRACEPIPE_H

#include <stdbool.h>
#include <stddef.h>
#include <stdint.h>

#ifdef __cplusplus
extern "C" {
#endif

/* What the functions answer. At every code but TP_OK, TP_MORE and TP_CUT all is as before the call. */
enum {
    TP_OK = 0,
    TP_NOT_LIVE = 1,              /* the handle was not begun, or its stream has ended */
    TP_LIVE = 2,                  /* tp_begin: the handle is live */
    TP_BAD_DEFINITION = 3,        /* tp_define: see tp_define */
    TP_BAD_NAMES = 4,             /* tp_define: name_units of the fields don't add up to names_units */
    TP_TOO_MANY_DEFINITIONS = 5,  /* tp_define: 1,000 others are there */
    TP_NO_DEFINITION = 6,         /* tp_event: no definition has this number */
    TP_BAD_FRAMES = 7,            /* tp_event: more than 800 bytes of frames, or not 8 for each */
    TP_LONG_PAYLOAD = 8,          /* tp_event: more than 60,000 bytes */
    TP_TOO_MANY_THREADS = 9,      /* tp_event: 1,000,001 other threads have events */
    TP_TOO_MANY_EVENTS = 10,      /* tp_event: the thread has 4,294,967,295 */
    TP_TOO_MANY_STACKS = 11,      /* tp_event: 2,147,483,646 events with frames since the last point */
    TP_ENDED = 12,                /* the stream has its end, and waits to be pulled */
    TP_MORE = 13,                 /* tp_end: `out` is full, and more is left */
    TP_OUT_OF_MEMORY = 14,        /* there was no memory; the call may be made again */
    TP_CUT = 15,                  /* there was no memory amid a write, now or before: the stream stops in that entry */
    TP_NULL = 16                  /* a pointer is NULL that may not be */
};

/* A stream that is written. All zeros are a handle that is not live: `tp_handle handle = {0};`. */
typedef struct tp_handle {
    void *at;
    bool live;
} tp_handle;

/* What a stream says first of its program. */
typedef struct tp_info {
    uint16_t date[8];      /* year, month, day of the week, day, hour, minute, second, millisecond */
    uint64_t sync;         /* the clock's counter at that date */
    uint64_t frequency;    /* counts of the clock in a second */
    uint32_t pointer_size; /* in bytes */
    uint32_t process_id;
    uint32_t processors;
    uint32_t rate;         /* expected samples in a second, or 0 */
} tp_info;

/* The numbers of a definition of an event. */
typedef struct tp_definition {
    uint64_t keywords; /* one bit for each keyword of the provider */
    uint32_t id;       /* the event's id in its provider */
    uint32_t version;
    uint32_t level;    /* from 1, critical, up to 5, verbose */
} tp_definition;

/* The types of fields, as the format numbers them. */
enum {
    TP_OBJECT = 1, /* its fields stand after it, one deeper */
    TP_BOOLEAN = 3,
    TP_CHAR = 4,
    TP_SBYTE = 5,
    TP_BYTE = 6,
    TP_INT16 = 7,
    TP_UINT16 = 8,
    TP_INT32 = 9,
    TP_UINT32 = 10,
    TP_INT64 = 11,
    TP_UINT64 = 12,
    TP_SINGLE = 13,
    TP_DOUBLE = 14,
    TP_DECIMAL = 15,
    TP_DATE_TIME = 16,
    TP_GUID = 17,
    TP_STRING = 18 /* UTF-16 with a zero unit at its end */
};

/* A field of an event's payload, in the payload's order. */
typedef struct tp_field {
    uint32_t depth;      /* how many objects it stands inside of: 0 outermost */
    uint32_t name_units; /* the units of UTF-16 of its name, which follows that of the field before in `names` */
    uint8_t code;        /* a type of the list above */
} tp_field;

/* What an event has beside its frames and its payload. */
typedef struct tp_event_head {
    uint64_t thread;      /* the thread that writes it: any number that tells it from others */
    uint64_t stamp;       /* the clock's counter */
    uint8_t activity[16]; /* the activity's id, or zeros */
    uint8_t related[16];  /* the related activity's id, or zeros */
    uint32_t event;       /* the number that tp_define answered */
} tp_event_head;

/*
 * Begins a stream. The handle is live after TP_OK.
 * Answers TP_OK, TP_LIVE, TP_OUT_OF_MEMORY or TP_NULL.
 */
uint32_t tp_begin(tp_handle *handle, const tp_info *info);

/*
 * Gives a definition its number: 1 for the first, then 2, 3, ..; a definition that is the same in each part as one before
 * has the number of that one. `*number` is written at TP_OK alone.
 * Texts are in units of UTF-16 (`u"Tick"` without its last zero). TP_BAD_DEFINITION is: no provider, a provider or a name
 * of more than 1,000 units or with a zero unit, more than 100 fields, one of another type than those above, one with a name
 * of more than 200 units or with a zero unit, or one that is deeper than 8 objects or than the field before it allows.
 * Answers TP_OK, TP_NOT_LIVE, TP_ENDED, TP_CUT, TP_BAD_NAMES, TP_BAD_DEFINITION, TP_TOO_MANY_DEFINITIONS,
 * TP_OUT_OF_MEMORY or TP_NULL.
 */
uint32_t tp_define(tp_handle *handle, const tp_definition *definition, const uint16_t *provider, size_t provider_units,
                   const uint16_t *name, size_t name_units, const tp_field *fields, size_t fields_count,
                   const uint16_t *names, size_t names_units, uint32_t *number);

/*
 * Writes one event, with the next number of its thread (1, 2, 3, ..), which the library counts.
 * Frames are return addresses of 8 bytes each, the innermost first, at most 100; the payload is at most 60,000 bytes, laid
 * out as the definition's fields say, which nothing checks.
 * Answers TP_OK, TP_NOT_LIVE, TP_ENDED, TP_CUT, TP_NO_DEFINITION, TP_BAD_FRAMES, TP_LONG_PAYLOAD, TP_TOO_MANY_STACKS,
 * TP_TOO_MANY_THREADS, TP_TOO_MANY_EVENTS, TP_OUT_OF_MEMORY or TP_NULL.
 */
uint32_t tp_event(tp_handle *handle, const tp_event_head *event, const void *frames, size_t frames_bytes,
                  const void *payload, size_t payload_bytes);

/*
 * Writes a sequence point: how many events each thread has so far. What was written can be pulled then, and a reader can
 * sort what stands before it. Once a second is usual, and once before the end.
 * Answers TP_OK, TP_NOT_LIVE, TP_ENDED, TP_CUT, TP_OUT_OF_MEMORY or TP_NULL.
 */
uint32_t tp_point(tp_handle *handle, uint64_t stamp);

/*
 * Moves the next bytes of the stream to the front of `out`: as many as are there, and as fit. `*count` is how many. Events
 * that wait for their block, at most 102,400 bytes of them, come once a point, the end or the next full block writes them.
 * Answers TP_OK, TP_NOT_LIVE or TP_NULL.
 */
uint32_t tp_pull(tp_handle *handle, void *out, size_t out_bytes, size_t *count);

/*
 * Ends the stream, and moves its next bytes to the front of `out`; `*count` is how many. It answers TP_MORE as long as more
 * is left: call it again. At TP_OK these were the last bytes, and all that was pulled is the whole stream. At TP_CUT they
 * were the last bytes, and the stream breaks off. At both the memory is freed and the handle is not live.
 * Answers TP_OK, TP_MORE, TP_CUT, TP_NOT_LIVE or TP_NULL.
 */
uint32_t tp_end(tp_handle *handle, void *out, size_t out_bytes, size_t *count);

#ifdef __cplusplus
}
#endif

#endif
