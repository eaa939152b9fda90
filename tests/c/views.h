/* What the tests of views share: messages, and what a view is to show of a member. The expected values are those of
 * include/swimtab.h and of memberlist's state.go. */
#ifndef VIEWS_H
#define VIEWS_H

#include "streams.h"

#include <stddef.h>

/* Thirty seconds. */
#define WAIT ((uint64_t)30000000)

/* The versions of a member of memberlist, in a record too. */
static const uint8_t sound[6] = {1, 5, 2, 0, 0, 0};
#define VSN "a6010502000000"

/* The record of a member with one letter, on 10.0.0.host with port 7946; each argument has the bytes of a value. */
#define MEMBER(name, host, inc, meta, state) RECORD("a40a0000" host, inc, meta, "a1" name, "cd1f0a", state, VSN)

/* What a view is to show of a member on 10.0.0.host; the texts may be NULL. */
struct shown {
    const char *name;
    uint32_t state, inc;
    uint64_t since;
    uint8_t host;
    const char *meta;
    const char *by;
    uint8_t accusers, rivals;
};

/* A message. */
struct said {
    size_t len;
    uint8_t at[SWIMTAB_MAX_PACKET_LEN];
};

static inline struct said said_by(swimtab_written written, struct said said) {
    WANT(written.status == SWIMTAB_DONE);
    said.len = written.len;
    return said;
}

/* An Alive of this name at 10.0.0.host with this port and these versions; `meta` is text. */
static inline struct said alive_with_versions(const char *name, uint32_t inc, uint8_t host, uint16_t port,
                                              const char *meta, const uint8_t *vsn) {
    struct said said;
    const uint8_t addr[4] = {10, 0, 0, host};
    return said_by(alive_with(name, strlen(name), addr, 4, port, meta, strlen(meta), vsn, vsn ? 6 : 0, inc, said.at,
                              sizeof said.at),
                   said);
}

static inline struct said alive(const char *name, uint32_t inc, uint8_t host, const char *meta) {
    return alive_with_versions(name, inc, host, 7946, meta, sound);
}

static inline struct said suspicion(const char *from, const char *name, uint32_t inc) {
    struct said said;
    return said_by(swimtab_suspect_of(from, strlen(from), name, strlen(name), inc, said.at, sizeof said.at), said);
}

static inline struct said death(const char *from, const char *name, uint32_t inc) {
    struct said said;
    return said_by(swimtab_dead_of(from, strlen(from), name, strlen(name), inc, said.at, sizeof said.at), said);
}

/* A view of which nothing is told yet. */
static inline swimtab_view new_view(void) {
    swimtab_view view = SWIMTAB_VIEW_INIT;
    WANT(swimtab_view_open(&view, WAIT) == SWIMTAB_DONE);
    return view;
}

/* Memory for what a call copies, each byte 9. */
static inline swimtab_view_data blank(void) {
    swimtab_view_data data;
    memset(&data, 9, sizeof data);
    return data;
}

static inline uint16_t put_text(uint8_t *out, const char *text) {
    size_t len = text ? strlen(text) : 0;
    memcpy(out, text ? text : "", len);
    return (uint16_t)len;
}

/* What a call is to copy over a blank. */
static inline swimtab_view_data data_of(struct shown shown) {
    swimtab_view_data data = blank();
    data.since = shown.since, data.state = shown.state, data.inc = shown.inc;
    data.port = 7946, data.addr_len = 4, data.vsn_len = 6;
    data.accusers = shown.accusers, data.rivals = shown.rivals;
    memcpy(data.addr, "\x0a\0\0", 3), data.addr[3] = shown.host;
    memcpy(data.vsn, sound, 6);
    data.name_len = put_text(data.name, shown.name);
    data.meta_len = put_text(data.meta, shown.meta);
    data.by_len = put_text(data.by, shown.by);
    memset(data.reserved, 0, sizeof data.reserved);
    return data;
}

/* Whether all bytes are the same. There is no padding before `reserved`. */
static inline bool is_same(const swimtab_view_data *one, const swimtab_view_data *other) {
    return memcmp(one, other, offsetof(swimtab_view_data, reserved) + sizeof one->reserved) == 0;
}

static inline bool is_blank(const swimtab_view_data *data) {
    swimtab_view_data none = blank();
    return is_same(data, &none);
}

static inline bool is_shown(const swimtab_view_data *data, struct shown wanted) {
    swimtab_view_data expected = data_of(wanted);
    bool same = is_same(data, &expected);
    if (!same)
        printf("    shown: state %u at %u since %llu, %u accusers, %u rivals\n", (unsigned)data->state,
               (unsigned)data->inc, (unsigned long long)data->since, (unsigned)data->accusers, (unsigned)data->rivals);
    return same;
}

/* Whether the view shows exactly this of the member. */
static inline bool shows(const swimtab_view *view, struct shown wanted) {
    swimtab_view_data data = blank();
    WANT(swimtab_view_find(view, wanted.name, strlen(wanted.name), &data) == SWIMTAB_DONE);
    return is_shown(&data, wanted);
}

/* Up to eight members of a view, for a comparison. */
struct members {
    size_t count;
    swimtab_view_data each[8];
};

static inline void look(const swimtab_view *view, struct members *members) {
    uint8_t name[1024];
    size_t name_len = 0;
    for (members->count = 0; members->count < 8; members->count++) {
        swimtab_view_data *data = &members->each[members->count];
        *data = blank();
        if (swimtab_view_after(view, name, name_len, data) != SWIMTAB_DONE) break;
        name_len = data->name_len;
        memcpy(name, data->name, name_len);
    }
    WANT(members->count == swimtab_view_count(view));
}

static inline bool is_as_before(const swimtab_view *view, const struct members *before) {
    static struct members now;
    size_t same = 0;
    look(view, &now);
    while (same < now.count && is_same(&now.each[same], &before->each[same])) same++;
    return same == now.count && same == before->count;
}

/* The view has this event of the message, and copies and shows exactly this. */
static inline bool hears(swimtab_view *view, uint64_t time, struct said said, uint32_t event, struct shown wanted) {
    swimtab_view_data data = blank();
    swimtab_told told = swimtab_view_take(view, time, said.at, said.len, &data);
    if (told.status != SWIMTAB_DONE || told.event != event)
        printf("    told: status %u, event %u\n", (unsigned)told.status, (unsigned)told.event);
    return told.status == SWIMTAB_DONE && told.event == event && is_shown(&data, wanted) && shows(view, wanted);
}

/* Tells the view a message that has this event. */
static inline void told_at(swimtab_view *view, uint64_t time, struct said said, uint32_t event) {
    swimtab_told told = swimtab_view_take(view, time, said.at, said.len, NULL);
    WANT(told.status == SWIMTAB_DONE && told.event == event);
}

/* The call has this status and no event, copies nothing and changes nothing. */
static inline bool has_no_event(const swimtab_view *view, swimtab_told told, uint32_t status,
                                const swimtab_view_data *data, const struct members *before) {
    if (told.status != status || told.event)
        printf("    told: status %u, event %u\n", (unsigned)told.status, (unsigned)told.event);
    return told.status == status && told.event == SWIMTAB_NO_EVENT && is_blank(data) && is_as_before(view, before);
}

/* The view has no event of the bytes, and nothing has changed. */
static inline bool leaves(swimtab_view *view, uint64_t time, const uint8_t *at, size_t len, uint32_t status) {
    static struct members before;
    swimtab_view_data data = blank();
    look(view, &before);
    return has_no_event(view, swimtab_view_take(view, time, at, len, &data), status, &data, &before);
}

static inline bool passes_over(swimtab_view *view, uint64_t time, struct said said) {
    return leaves(view, time, said.at, said.len, SWIMTAB_DONE);
}

static inline bool leaves_hex(swimtab_view *view, const char *text, uint32_t status) {
    struct bytes bytes = hex(text);
    bool left = leaves(view, 1, bytes.at, bytes.len, status);
    free(bytes.at);
    return left;
}

#endif
