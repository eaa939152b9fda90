/* agent [-s] NAME ADDRESS PORT [ADDRESS PORT]..: a whole member of a memberlist cluster, as sockets and a loop; with -s
 * of one of Serf or Consul. It joins by the other addresses, prints `NAME EVENT INCARNATION` for each change and
 * `incompatible` for a table of members with other versions, and leaves at the end of its input. */
#define _GNU_SOURCE 1
#include <arpa/inet.h>
#include <poll.h>
#include <stdio.h>
#include <string.h>
#include <swimtab.h>
#include <time.h>
#include <unistd.h>
enum { LINES = 256, UDP = LINES, TCP, INPUT, ALL }; /* what is polled; a stream's line is its number modulo LINES */
static struct line { uint64_t stream; int fd; bool ends; swimtab_buffer out; size_t sent; } lines[LINES];
static swimtab_agent agent = SWIMTAB_AGENT_INIT;
static const char *const EVENTS[] = {"",        "joined",    "known",          "back", "updated", "renewed",
                                     "refuted", "suspected", "also-suspected", "dead", "left",    "conflict"};
static uint64_t now(void) {
    struct timespec time;
    return clock_gettime(CLOCK_MONOTONIC, &time), (uint64_t)time.tv_sec * 1000000 + (uint64_t)time.tv_nsec / 1000;
}
#define say(...) (poll(&(struct pollfd){1, POLLOUT, 0}, 1, 0) > 0 ? dprintf(1, __VA_ARGS__) : 0) /* unless nobody reads */
static void replace(struct line *l, uint64_t stream, int fd) { /* ends what is there, and begins that */
    if (l->fd) swimtab_agent_closed(&agent, now(), l->stream), close(l->fd), swimtab_free(&l->out);
    *l = (struct line){.stream = stream, .fd = fd};
}

int main(int argc, char **argv) {
    static uint8_t in[1 << 16];
    static swimtab_agent_out out;
    swimtab_buffer bytes = SWIMTAB_BUFFER_INIT;
    swimtab_agent_config config = SWIMTAB_AGENT_CONFIG_INIT;
    bool is_serf = argc > 1 && !strcmp(argv[1], "-s");
    argc -= is_serf, argv += is_serf;
    if (argc < 4 || argc % 2 || sscanf(argv[3], "%hu", &config.port) != 1)
        return fputs("agent: [-s] NAME ADDRESS PORT [ADDRESS PORT]..\n", stderr), 2;
    struct sockaddr_in own = {AF_INET, htons(config.port), {inet_addr(argv[2])}, {0}}, from = own, to = own;
    config.name = argv[1], config.name_len = strlen(argv[1]), config.addr = &own.sin_addr, config.addr_len = 4;
    config.vsn = is_serf ? "\1\5\2\2\5\4" : "\1\5\2\0\0\0", config.vsn_len = 6;
    int input = 0, udp = socket(AF_INET, SOCK_DGRAM, 0), tcp = socket(AF_INET, SOCK_STREAM | SOCK_NONBLOCK, 0);
    setsockopt(tcp, SOL_SOCKET, SO_REUSEADDR, &(int){1}, sizeof(int));
    if (bind(udp, (void *)&own, sizeof own) || bind(tcp, (void *)&own, sizeof own) || listen(tcp, LINES) ||
        getentropy(config.seed, sizeof config.seed) || swimtab_agent_open(&agent, &config, now()))
        return perror("agent"), 1;
    swimtab_place seeds[64] = {{{0}, 0, 0}}, *seed = seeds, there = {{0}, 4, 0};
    for (char **word = argv + 4; *word && seed < seeds + 64; word += 2, seed++)
        seed->addr_len = (uint8_t)(4 * inet_pton(AF_INET, word[0], seed->addr)), sscanf(word[1], "%hu", &seed->port);
    if (swimtab_agent_join(&agent, now(), seeds, (size_t)(seed - seeds))) return fputs("agent: bad seed\n", stderr), 2;
    for (unsigned busy = 0;;) { /* rounds in which something waited to be read */
        while (swimtab_agent_next(&agent, &out, &bytes) == SWIMTAB_DONE) {
            struct line *l = &lines[out.stream % LINES];
            to.sin_port = htons(out.to.port), memcpy(&to.sin_addr, out.to.addr, 4);
            if (out.kind == SWIMTAB_OUT_SEND) sendto(udp, bytes.at, bytes.len, 0, (void *)&to, sizeof to);
            if (out.kind == SWIMTAB_OUT_DIAL) { /* what the agent writes waits until it is open */
                replace(l, out.stream, socket(AF_INET, SOCK_STREAM | SOCK_NONBLOCK, 0));
                connect(l->fd, (void *)&to, sizeof to), swimtab_agent_connected(&agent, now(), out.stream);
            }
            if (out.kind == SWIMTAB_OUT_WRITE && l->stream == out.stream) l->out = bytes, bytes = (swimtab_buffer){0};
            if (out.kind == SWIMTAB_OUT_CLOSE && l->stream == out.stream) l->ends = true;
            for (uint8_t *c = out.name; c < out.name + out.name_len; c++) *c = *c > ' ' && *c < 127 ? *c : '?';
            if (out.kind == SWIMTAB_OUT_INCOMPATIBLE) say("incompatible\n");
            if (out.kind == SWIMTAB_OUT_CHANGED)
                say("%.*s %s %u\n", out.name_len, (char *)out.name, EVENTS[out.event], out.inc);
            if (out.kind == SWIMTAB_OUT_DEPARTED) return swimtab_agent_close(&agent), 0;
        }
        struct pollfd fds[ALL] = {[UDP] = {udp, POLLIN, 0}, {tcp, POLLIN, 0}, {input, POLLIN, 0}};
        for (struct line *l = lines; l < lines + LINES; l++)
            fds[l - lines] = (struct pollfd){l->fd ? l->fd : -1, l->ends || l->sent < l->out.len ? POLLOUT : POLLIN, 0};
        uint64_t wake = swimtab_agent_wake(&agent), time = now(), stream;
        if (poll(fds, ALL, time < wake ? (int)((wake - time) / 1000 + 1) : 0) == 0 || ++busy == 1000)
            busy = 0, swimtab_agent_tick(&agent, now()); /* all that waited is read, also while it stood still */
        ssize_t n = recvfrom(udp, in, sizeof in, MSG_DONTWAIT, (void *)&from, &(socklen_t){sizeof from});
        there.port = ntohs(from.sin_port), memcpy(there.addr, &from.sin_addr, 4);
        if (n >= 0) swimtab_agent_packet(&agent, now(), &there, in, (size_t)n);
        for (struct line *l = lines; l < lines + LINES; l++) {
            if (!fds[l - lines].revents) continue;
            size_t left = l->out.len - l->sent;
            if (left) n = send(l->fd, l->out.at + l->sent, left, MSG_NOSIGNAL), l->sent += (size_t)n;
            else n = l->ends ? 0 : recv(l->fd, in, sizeof in, 0);
            if (n <= 0 || (!left && swimtab_agent_received(&agent, now(), l->stream, in, (size_t)n))) replace(l, 0, 0);
        }
        if (fds[TCP].revents && swimtab_agent_accepted(&agent, now(), &stream) == SWIMTAB_DONE)
            replace(&lines[stream % LINES], stream, accept4(tcp, NULL, NULL, SOCK_NONBLOCK));
        if (fds[INPUT].revents && read(input, in, sizeof in) <= 0) input = -1, swimtab_agent_leave(&agent, now());
    }
}
