/* examples/c/agent.c with commands. It prints each event as `NAME EVENT STATE INCARNATION ADDRESS:PORT [BY]`. `list`
 * prints `NAME STATE INCARNATION ADDRESS:PORT` for each member, and a line `.`; `add HEX`, `use HEX`, `remove HEX` are
 * for keys; `leave`, or the end of the input, ends it. Tables are exchanged each 10 seconds; -DSECOND=250000 quarters
 * all times. With AGENT_SERF set versions are Serf's. The example knows nothing of this: the functions below are called
 * in place of three that it calls. */
#define _GNU_SOURCE 1
#include <stdlib.h>
#include <swimtab.h>
#include <unistd.h>
static swimtab_status opens(swimtab_agent *opened, const swimtab_agent_config *given, uint64_t time);
static swimtab_status tells(swimtab_agent *of, swimtab_agent_out *out, swimtab_buffer *buffer);
static ssize_t reads(int file, void *bytes, size_t len);
#define swimtab_agent_open opens
#define swimtab_agent_next tells
#define read reads
#include "../../examples/c/agent.c"
#undef swimtab_agent_open
#undef swimtab_agent_next
#undef read
#ifndef SECOND
#define SECOND 1000000 /* microseconds */
#endif
enum { MS = SECOND / 1000 }; /* a second in milliseconds */
static swimtab_keyring keys = SWIMTAB_KEYRING_INIT;
static swimtab_agent_config own; /* the configuration */
static unsigned asked;           /* how many lists are printed once all that changed was shown */

static void show(swimtab_view_data m, const char *event) { /* with a ? for each byte that would break the line */
    static const char *const STATES[] = {"alive", "suspect", "dead", "left", "noted"};
    char addr[INET6_ADDRSTRLEN] = "";
    for (size_t i = 0; i < sizeof m.name; i++)
        m.name[i] = m.name[i] > ' ' ? m.name[i] : '?', m.by[i] = m.by[i] > ' ' ? m.by[i] : '?';
    inet_ntop(m.addr_len == 4 ? AF_INET : AF_INET6, m.addr, addr, sizeof addr);
    printf("%.*s %s%s%s", m.name_len, (char *)m.name, event, *event ? " " : "", STATES[m.state]);
    printf(" %u %s:%u", m.inc, addr, m.port);
    printf(*event && m.by_len ? " %.*s\n" : "\n", m.by_len, (char *)m.by);
}

/* Gives what the agent put out, but shows what changed itself, and then the lists that were asked for. */
static swimtab_status tells(swimtab_agent *of, swimtab_agent_out *out, swimtab_buffer *buffer) {
    swimtab_view_data m = {0}, last = m;
    swimtab_status status = swimtab_agent_next(of, out, buffer);
    for (; status != SWIMTAB_DONE && asked > 0; asked--, last = (swimtab_view_data){0}, puts("."))
        for (; !swimtab_agent_after(of, last.name, last.name_len, &m); last = m) show(m, "");
    if (status != SWIMTAB_DONE) return status;
    if (out->kind == SWIMTAB_OUT_CHANGED && !swimtab_agent_find(of, out->name, out->name_len, &m))
        show(m, EVENTS[out->event]);
    if (out->kind == SWIMTAB_OUT_REFUTED && !swimtab_agent_find(of, own.name, own.name_len, &m))
        show(m, EVENTS[SWIMTAB_REFUTED]);
    if (out->kind == SWIMTAB_OUT_CHANGED) out->kind = 0;
    return status;
}

/* Does a command, and returns 0 if no more may come. */
static ssize_t reads(int file, void *bytes, size_t len_of_bytes) {
    uint8_t key[32], held[32];
    char text[128], word[8] = "leave", hex[65] = "";
    size_t len = 0, i = 0, count = swimtab_keyring_count(&keys);
    (void)file, (void)bytes, (void)len_of_bytes;
    if (fgets(text, sizeof text, stdin)) *word = 0, sscanf(text, "%7s %64[0-9a-fA-F]", word, hex);
    while (len < sizeof key && sscanf(hex + 2 * len, "%2hhx", &key[len]) == 1) len++;
    while (i < count && (swimtab_keyring_key(&keys, i, held, sizeof held).len != len || memcmp(key, held, len))) i++;
    if (!strcmp(word, "add") && i == count && strlen(hex) == 2 * len) swimtab_keyring_add(&keys, key, len);
    if (!strcmp(word, "use")) swimtab_keyring_use(&keys, i);
    if (!strcmp(word, "remove")) swimtab_keyring_remove(&keys, i);
    if (len > 0) swimtab_agent_keys(&agent, &keys);
    asked += !strcmp(word, "list");
    return strcmp(word, "leave") ? 1 : 0;
}

/* Opens the agent with these times, and does the first commands, which add keys. */
static swimtab_status opens(swimtab_agent *opened, const swimtab_agent_config *given, uint64_t time) {
    struct pollfd in = {0, POLLIN, 0};
    setvbuf(stdin, NULL, _IONBF, 0), setvbuf(stdout, NULL, _IOLBF, 0);
    own = *given;
    own.vsn = getenv("AGENT_SERF") ? "\1\5\2\2\5\4" : own.vsn, own.keys = &keys;
    own.probe_interval = MS, own.probe_timeout = MS / 2, own.gossip_interval = MS / 5;
    own.push_pull_interval = own.tcp_timeout = 10 * MS;
    own.gossip_to_the_dead_time = own.reconnect_interval = 30 * MS;
    swimtab_status status = swimtab_agent_open(opened, &own, time);
    while (status == SWIMTAB_DONE && poll(&in, 1, 20) > 0 && reads(0, NULL, 0)) continue;
    return status;
}
