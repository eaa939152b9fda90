/* What the calls cost from C, in CPU time of the process: the least of several runs.
 *
 *     cc -O2 -D_POSIX_C_SOURCE=200809L -Iinclude tests/c/bench.c build/libswimtab.a -o bench
 *     ./bench [NAMES [METADATA]]
 *
 * A record is an Alive with a name of 11 bytes, an address of 4, six bytes of versions and METADATA bytes of
 * metadata, or none. */
#include "check.h"

#include <time.h>

enum { RUNS = 20 };

struct packet {
    uint8_t bytes[160];
    size_t len;
};

static const char *meta = "";

static double now(void) {
    struct timespec time;
    clock_gettime(CLOCK_PROCESS_CPUTIME_ID, &time);
    return (double)time.tv_sec * 1e9 + (double)time.tv_nsec;
}

static void least(double *best, double since) {
    double took = now() - since;
    if (took < *best) *best = took;
}

static uint8_t *room(size_t len) {
    uint8_t *made = calloc(len + 1, 1);
    if (!made) abort();
    return made;
}

static swimtab_node member(const char *name, unsigned i, uint32_t inc) {
    swimtab_node node = SWIMTAB_NODE_INIT;
    const uint8_t addr[4] = {10, (uint8_t)(i >> 16), (uint8_t)(i >> 8), (uint8_t)i}, versions[6] = {1, 5, 2, 0, 0, 0};
    WANT(open_with(&node, name, strlen(name), addr, 4, 7946, meta, strlen(meta), versions, 6, inc) == 0);
    return node;
}

/* Each member's own Alive at an incarnation. */
static void alives(struct packet *packets, unsigned count, uint32_t inc) {
    for (unsigned i = 0; i < count; i++) {
        char name[32];
        snprintf(name, sizeof name, "node-%06u", i);
        swimtab_node node = member(name, i, inc);
        swimtab_written written = swimtab_alive(&node, inc, packets[i].bytes, sizeof packets[i].bytes);
        WANT(written.status == 0);
        packets[i].len = written.len;
        swimtab_close(&node);
    }
}

static void shuffle(unsigned *order, unsigned count) {
    uint64_t state = 7;
    for (unsigned i = 0; i < count; i++) order[i] = i;
    for (unsigned i = count - 1; i > 0; i--) {
        state = state * 6364136223846793005u + 1442695040888963407u;
        unsigned j = (unsigned)(state >> 33) % (i + 1), kept = order[i];
        order[i] = order[j];
        order[j] = kept;
    }
}

static double take_all(swimtab_node *node, const struct packet *packets, const unsigned *order, unsigned count) {
    double since = now();
    for (unsigned i = 0; i < count; i++)
        WANT(swimtab_take(node, packets[order[i]].bytes, packets[order[i]].len).status == 0);
    return (now() - since) / count;
}

static double least_of_all(swimtab_node *node, const struct packet *packets, const unsigned *order, unsigned count) {
    double best = 1e18;
    for (int run = 0; run < RUNS; run++) {
        double took = take_all(node, packets, order, count);
        if (took < best) best = took;
    }
    return best;
}

static void packets_cost(swimtab_node *node, const struct packet *packets, const struct packet *higher,
                         const unsigned *order, const unsigned *ascending, unsigned count) {
    printf("a packet of %zu bytes\n", packets[0].len);
    printf("    of a new name, in random order       %8.0f ns\n", take_all(node, packets, order, count));
    printf("    of a known name, in random order     %8.0f ns\n", least_of_all(node, packets, order, count));
    printf("    of a known name, in ascending order  %8.0f ns\n", least_of_all(node, packets, ascending, count));
    printf("    that raises it, in random order      %8.0f ns\n", take_all(node, higher, order, count));
}

static void others_cost(const struct packet *packets, const unsigned *order, unsigned count) {
    swimtab_node node = member("listener", 1, 0);
    swimtab_view view = SWIMTAB_VIEW_INIT;
    WANT(swimtab_watch(&node, true) == 0 && swimtab_view_open(&view, 30000000) == 0);
    printf("    of a new name, which is noted        %8.0f ns\n", take_all(&node, packets, order, count));
    printf("    of a known name, which stays noted   %8.0f ns\n", least_of_all(&node, packets, order, count));
    double since = now();
    for (unsigned i = 0; i < count; i++)
        WANT(swimtab_view_take(&view, i, packets[order[i]].bytes, packets[order[i]].len, NULL).status == 0);
    printf("    of a new name, told to a view        %8.0f ns\n", (now() - since) / count);
    swimtab_view_close(&view);
    swimtab_close(&node);
}

static void looks_cost(swimtab_node *node, const unsigned *order, unsigned count) {
    static swimtab_member_data member;
    double best_count = 1e18, best_member = 1e18, best_find = 1e18;
    size_t sum = 0;
    for (int run = 0; run < RUNS; run++) {
        double since = now();
        for (int i = 0; i < 100000; i++) sum += swimtab_count(node);
        least(&best_count, since);
        since = now();
        for (unsigned i = 0; i < count; i++) sum += swimtab_member(node, order[i], &member);
        least(&best_member, since);
        since = now();
        for (unsigned i = 0; i < count; i++) {
            char name[32];
            size_t len = (size_t)snprintf(name, sizeof name, "node-%06u", order[i]);
            sum += swimtab_find(node, name, len, &member);
        }
        least(&best_find, since);
    }
    WANT(sum == 100000 * (size_t)RUNS * swimtab_count(node));
    printf("count                                    %8.1f ns\n", best_count / 100000);
    printf("member, places in random order           %8.0f ns\n", best_member / count);
    printf("find, names in random order, by snprintf %8.0f ns\n", best_find / count);
}

static void streams_cost(swimtab_node *node) {
    double offers = 1e18, empty = 1e18, again = 1e18, answers = 1e18, lists = 1e18;
    size_t len = swimtab_dump(node, NULL, 0).len, text_len = swimtab_list(node, NULL, 0).len + 4096;
    uint8_t *wire = room(len), *reply = room(len + 4096), *text = room(text_len);
    for (int run = 0; run < RUNS; run++) {
        swimtab_node other = member("a", 1, 0);
        double since = now();
        WANT(swimtab_dump(node, wire, len).status == 0);
        least(&offers, since);
        since = now();
        WANT(swimtab_finish(&other, wire, len).status == 0);
        least(&empty, since);
        since = now();
        WANT(swimtab_finish(&other, wire, len).status == 0);
        least(&again, since);
        since = now();
        WANT(swimtab_answer(&other, wire, len, SWIMTAB_CANONICAL, NULL, 0, reply, len + 4096).status == 0);
        least(&answers, since);
        since = now();
        WANT(swimtab_list(&other, text, text_len).status == 0);
        least(&lists, since);
        swimtab_close(&other);
    }
    printf("a stream of %zu records, %zu bytes\n", swimtab_count(node), len);
    printf("    finish, into an empty node %8.3f ms\n", empty / 1e6);
    printf("    finish, once more          %8.3f ms\n", again / 1e6);
    printf("    answer, of the same        %8.3f ms\n", answers / 1e6);
    printf("    offer                      %8.3f ms\n", offers / 1e6);
    printf("    list                       %8.3f ms\n", lists / 1e6);
    free(wire), free(reply), free(text);
}

int main(int argc, char **argv) {
    unsigned count = argc > 1 ? (unsigned)strtoul(argv[1], NULL, 10) : 10000;
    if (argc > 2) meta = argv[2];
    if (count == 0 || count > 131071 || strlen(meta) > 64) return 2;
    struct packet *packets = malloc(count * sizeof *packets), *higher = malloc(count * sizeof *higher);
    unsigned *order = malloc(count * sizeof *order), *ascending = malloc(count * sizeof *ascending);
    if (!packets || !higher || !order || !ascending) return 5;
    alives(packets, count, 5);
    alives(higher, count, 6);
    shuffle(order, count);
    for (unsigned i = 0; i < count; i++) ascending[i] = i;
    swimtab_node node = member("listener", 1, 0);
    printf("%u names\n", count);
    packets_cost(&node, packets, higher, order, ascending, count);
    others_cost(packets, order, count);
    looks_cost(&node, order, count);
    streams_cost(&node);
    swimtab_close(&node);
    free(packets), free(higher), free(order), free(ascending);
    return test_failures != 0;
}
