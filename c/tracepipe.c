/*
 * The functions of include/tracepipe.h: each answers TP_NULL where a pointer is NULL that may not be, and else calls the
 * proved function of crates/tp_c, to which every pointer has to be valid. This file is not proved.
 */
#include "../include/tracepipe.h"

uint32_t tp_c_begin(tp_handle *handle, const tp_info *info);
uint32_t tp_c_define(tp_handle *handle, const tp_definition *definition, const uint16_t *provider,
                     size_t provider_units, const uint16_t *name, size_t name_units, const tp_field *fields,
                     size_t fields_count, const uint16_t *names, size_t names_units, uint32_t *number);
uint32_t tp_c_event(tp_handle *handle, const tp_event_head *event, const uint8_t *frames, size_t frames_bytes,
                    const uint8_t *payload, size_t payload_bytes);
uint32_t tp_c_point(tp_handle *handle, uint64_t stamp);
uint32_t tp_c_pull(tp_handle *handle, uint8_t *out, size_t out_bytes, size_t *count);
uint32_t tp_c_end(tp_handle *handle, uint8_t *out, size_t out_bytes, size_t *count);

/* Stands where a pointer is NULL and nothing is read or written. */
static uint64_t nothing;

static const void *or_nothing(const void *pointer) { return pointer ? pointer : &nothing; }

static bool is_missing(const void *pointer, size_t length) { return !pointer && length; }

uint32_t tp_begin(tp_handle *handle, const tp_info *info) {
    if (!handle || !info) return TP_NULL;
    return tp_c_begin(handle, info);
}

uint32_t tp_define(tp_handle *handle, const tp_definition *definition, const uint16_t *provider, size_t provider_units,
                   const uint16_t *name, size_t name_units, const tp_field *fields, size_t fields_count,
                   const uint16_t *names, size_t names_units, uint32_t *number) {
    if (!handle || !definition || !number || is_missing(provider, provider_units) || is_missing(name, name_units)
        || is_missing(fields, fields_count) || is_missing(names, names_units))
        return TP_NULL;
    return tp_c_define(handle, definition, or_nothing(provider), provider_units, or_nothing(name), name_units,
                       or_nothing(fields), fields_count, or_nothing(names), names_units, number);
}

uint32_t tp_event(tp_handle *handle, const tp_event_head *event, const void *frames, size_t frames_bytes,
                  const void *payload, size_t payload_bytes) {
    if (!handle || !event || is_missing(frames, frames_bytes) || is_missing(payload, payload_bytes)) return TP_NULL;
    return tp_c_event(handle, event, or_nothing(frames), frames_bytes, or_nothing(payload), payload_bytes);
}

uint32_t tp_point(tp_handle *handle, uint64_t stamp) {
    if (!handle) return TP_NULL;
    return tp_c_point(handle, stamp);
}

uint32_t tp_pull(tp_handle *handle, void *out, size_t out_bytes, size_t *count) {
    if (!handle || !count || is_missing(out, out_bytes)) return TP_NULL;
    return tp_c_pull(handle, (uint8_t *)or_nothing(out), out_bytes, count);
}

uint32_t tp_end(tp_handle *handle, void *out, size_t out_bytes, size_t *count) {
    if (!handle || !count || is_missing(out, out_bytes)) return TP_NULL;
    return tp_c_end(handle, (uint8_t *)or_nothing(out), out_bytes, count);
}
