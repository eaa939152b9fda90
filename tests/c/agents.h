/* Two agents on a network in virtual time, without losses or delays, for tests. */
#ifndef AGENTS_H
#define AGENTS_H

#include "check.h"

enum { LINKS = 64, KINDS = 15, EVENTS = 13 };

/* One end of a stream, and the other one. */
struct end {
    size_t peer;
    uint64_t stream;
    bool is_written; /* its agent wrote, which it does once */
};
static struct { struct end ends[2]; } links[LINKS];
static size_t link_count;

/* What came of each kind, and of each event; the last of each; the bytes of the last message and state. */
static struct peer {
    swimtab_agent agent;
    size_t kinds[KINDS], events[EVENTS];
    swimtab_agent_out last[KINDS];
    char said[64], state[64];
    size_t largest; /* the most bytes of a datagram */
    bool is_cut;    /* nothing goes to it or comes from it */
} peers[2];
static uint64_t now;
static swimtab_buffer bytes;

static inline swimtab_place place_of(size_t peer) {
    swimtab_place place = {{127, 0, 0, (uint8_t)(1 + peer)}, 4, 7946};
    return place;
}

/* The versions of both. */
static const char *versions[2] = {"\1\5\2\0\0\0", "\1\5\2\0\0\0"};

/* The agent's configuration: its name is n1 or n2. */
static inline swimtab_agent_config config_of(size_t peer) {
    static const uint8_t addrs[2][4] = {{127, 0, 0, 1}, {127, 0, 0, 2}};
    swimtab_agent_config config = SWIMTAB_AGENT_CONFIG_INIT;
    config.name = peer ? "n2" : "n1", config.name_len = 2;
    config.addr = addrs[peer], config.addr_len = 4, config.port = 7946;
    config.vsn = versions[peer], config.vsn_len = 6;
    config.seed[0] = (uint8_t)(1 + peer);
    return config;
}

/* The link of a stream, and which of its ends this peer has; LINKS if there is none. */
static inline size_t link_of(size_t peer, uint64_t stream, size_t *own) {
    for (size_t i = 0; i < link_count; i++)
        for (*own = 0; *own < 2; ++*own)
            if (links[i].ends[*own].peer == peer && links[i].ends[*own].stream == stream) return i;
    return LINKS;
}

static inline bool told(swimtab_status status) {
    WANT(status == SWIMTAB_DONE || status == SWIMTAB_MEMORY);
    return status == SWIMTAB_DONE;
}

/* Opens a stream to the other peer, or tells that this cannot be. */
static inline void dial(size_t peer, const swimtab_agent_out *out) {
    size_t to = out->to.addr[3] - 1u;
    uint64_t stream = 0;
    WANT(out->stream % 2 == 0 && out->to.addr_len == 4 && out->to.port == 7946);
    if (to > 1 || link_count == LINKS || peers[to].is_cut || !peers[to].agent.held ||
        !told(swimtab_agent_accepted(&peers[to].agent, now, &stream))) {
        told(swimtab_agent_closed(&peers[peer].agent, now, out->stream));
        return;
    }
    WANT(stream % 2 == 1);
    links[link_count].ends[0] = (struct end){peer, out->stream, false};
    links[link_count].ends[1] = (struct end){to, stream, false};
    link_count++;
    told(swimtab_agent_connected(&peers[peer].agent, now, out->stream));
}

/* What an output of its kind has not is 0. */
static inline bool has_no_more(const swimtab_agent_out *out) {
    enum { STREAM = 1, COUNT = 2, EVENT = 4, INC = 8, PROBE = 16, TO = 32, NAME = 64, BY = 128, JOIN = 256 };
    static const unsigned has[KINDS] = {0,    TO,  STREAM | TO, STREAM, STREAM, EVENT | INC | NAME | BY, PROBE | NAME,
                                        NAME, INC, 0,           COUNT,  0,      0,                       JOIN,
                                        STREAM};
    static const swimtab_agent_out none;
    const unsigned it = out->kind < KINDS ? has[out->kind] : 0;
    return (it & STREAM || !out->stream) && (it & COUNT || !out->count) && (it & EVENT || !out->event) &&
           (it & INC || !out->inc) && (it & PROBE || !(out->seq || out->expected || out->nacks)) &&
           (it & TO || !(out->to.addr_len || out->to.port || memcmp(out->to.addr, none.to.addr, 16))) &&
           (it & NAME || !out->name_len) && (it & BY || !out->by_len) && (it & JOIN || !out->join) &&
           memcmp(out->reserved, none.reserved, sizeof none.reserved) == 0;
}

/* Does what an agent put out. */
static inline void does(size_t peer, const swimtab_agent_out *out) {
    struct peer *p = &peers[peer];
    size_t own, i = link_of(peer, out->stream, &own);
    const struct end *other = i < LINKS ? &links[i].ends[1 - own] : NULL;
    swimtab_place from = place_of(peer);
    WANT(0 < out->kind && out->kind < KINDS && has_no_more(out));
    p->kinds[out->kind]++, p->last[out->kind] = *out;
    switch (out->kind) {
    case SWIMTAB_OUT_SEND:
        if (bytes.len > p->largest) p->largest = bytes.len;
        if (out->to.addr[3] - 1u < 2 && !p->is_cut && !peers[out->to.addr[3] - 1].is_cut)
            told(swimtab_agent_packet(&peers[out->to.addr[3] - 1].agent, now, &from, bytes.at, bytes.len));
        break;
    case SWIMTAB_OUT_DIAL: dial(peer, out); break;
    case SWIMTAB_OUT_WRITE:
        WANT(!other || !links[i].ends[own].is_written);
        if (other) links[i].ends[own].is_written = true;
        if (other) told(swimtab_agent_received(&peers[other->peer].agent, now, other->stream, bytes.at, bytes.len));
        break;
    case SWIMTAB_OUT_CLOSE:
        if (other) told(swimtab_agent_closed(&peers[other->peer].agent, now, other->stream));
        if (other) links[i] = links[--link_count];
        break;
    case SWIMTAB_OUT_CHANGED: p->events[out->event]++; break;
    case SWIMTAB_OUT_USER: snprintf(p->said, sizeof p->said, "%.*s", (int)bytes.len, (const char *)bytes.at); break;
    case SWIMTAB_OUT_USER_STATE:
        snprintf(p->state, sizeof p->state, "%.*s", (int)bytes.len, (const char *)bytes.at);
        break;
    default: WANT(bytes.len == 0); break;
    }
}

/* Does all that the agents put out, until they are still. */
static inline void settle(void) {
    static swimtab_agent_out out;
    for (bool is_still = false; !is_still;) {
        is_still = true;
        for (size_t i = 0; i < 2; i++) {
            swimtab_status status = SWIMTAB_DONE;
            while (status == SWIMTAB_DONE || status == SWIMTAB_MEMORY) {
                status = swimtab_agent_next(&peers[i].agent, &out, &bytes);
                if (status == SWIMTAB_DONE) does(i, &out), is_still = false;
            }
            WANT(status == SWIMTAB_NO_ITEM || (status == SWIMTAB_NO_NODE && !peers[i].agent.held));
        }
    }
}

/* Lets so many milliseconds pass. */
static inline void pass(uint64_t millis) {
    const uint64_t end = now + 1000 * millis;
    for (settle(); now < end; settle()) {
        uint64_t wakes[2] = {swimtab_agent_wake(&peers[0].agent), swimtab_agent_wake(&peers[1].agent)};
        uint64_t wake = wakes[0] < wakes[1] ? wakes[0] : wakes[1];
        now = wake > end ? end : wake > now ? wake : now;
        for (size_t i = 0; i < 2; i++)
            if (peers[i].agent.held && wakes[i] <= now) told(swimtab_agent_tick(&peers[i].agent, now));
    }
}

/* Opens both agents with these keys, and lets the second join by the first, each with a state of the program. */
static inline void open_both(const swimtab_keyring *keys) {
    memset(peers, 0, sizeof peers), link_count = 0, now = 5000000;
    for (size_t i = 0; i < 2; i++) {
        swimtab_agent_config config = config_of(i);
        config.keys = keys;
        WANT(swimtab_agent_open(&peers[i].agent, &config, now) == SWIMTAB_DONE);
        WANT(swimtab_agent_state(&peers[i].agent, now, i ? "state 2" : "state 1", 7) == SWIMTAB_DONE);
    }
    swimtab_place first = place_of(0);
    WANT(swimtab_agent_join(&peers[1].agent, now, &first, 1) == SWIMTAB_DONE);
    settle();
}

static inline void close_both(void) {
    for (size_t i = 0; i < 2; i++)
        if (peers[i].agent.held) WANT(swimtab_agent_close(&peers[i].agent) == SWIMTAB_DONE);
    swimtab_free(&bytes);
}

/* The state in which an agent shows a member, or 99 if it shows none of this name. */
static inline uint32_t shows(size_t peer, const char *name) {
    static swimtab_view_data data;
    swimtab_status status = swimtab_agent_find(&peers[peer].agent, name, strlen(name), &data);
    return status == SWIMTAB_DONE ? data.state : 99;
}

#endif
