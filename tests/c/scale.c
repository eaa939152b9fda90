/* What tests/scale and tests/speed/run measure of the library: ./scale SHAPE SIZE does the work of a shape at this
 * size, and prints the nanoseconds of processor time that it took. valgrind counts what is done in `measured` alone.
 * Names are counted, in random order unless the shape says otherwise. */
#include "views.h"

#include <time.h>

static size_t size;
static size_t *order;
static swimtab_node node = SWIMTAB_NODE_INIT, other = SWIMTAB_NODE_INIT;
static swimtab_view view = SWIMTAB_VIEW_INIT;
static struct said *alives, *deaths;
static uint8_t *stream;
static size_t stream_len;
static swimtab_member_data member;
static swimtab_view_data shown_member;

static size_t name_of(size_t i, char *name) {
    return (size_t)snprintf(name, 32, "node-%06zu", i);
}

static struct said suspicion_of(size_t i, size_t by) {
    char from[32], name[32];
    const size_t from_len = name_of(by, from), len = name_of(i, name);
    struct said said;
    return said_by(swimtab_suspect_of(from, from_len, name, len, 1, said.at, sizeof said.at), said);
}

static void take(swimtab_node *taker, const struct said *said) {
    WANT(swimtab_take(taker, said->at, said->len).status == SWIMTAB_DONE);
}

static void tell(uint64_t time, const struct said *said) {
    WANT(swimtab_view_take(&view, time, said->at, said->len, NULL).status == SWIMTAB_DONE);
}

/* ---- what is there before */

static void *room(size_t len) {
    void *made = malloc(len + 1);
    if (!made) abort();
    return made;
}

static void messages(void) {
    order = room(size * sizeof *order);
    alives = room(size * sizeof *alives);
    deaths = room(size * sizeof *deaths);
    uint64_t state = 7;
    for (size_t i = 0; i < size; i++) {
        char name[32];
        const size_t len = name_of(i, name);
        alives[i] = alive_with_versions(name, 1, (uint8_t)i, (uint16_t)(i / 256), "", sound);
        deaths[i] = said_by(swimtab_dead_of(name, len, name, len, 1, deaths[i].at, sizeof deaths[i].at), deaths[i]);
        state = state * 6364136223846793005u + 1442695040888963407u;
        const size_t j = (size_t)(state >> 33) % (i + 1);
        order[i] = order[j];
        order[j] = i;
    }
    WANT(open_with(&node, "a", 1, "\x0a\0\0\1", 4, 7946, "", 0, sound, 6, 0) == SWIMTAB_DONE);
    WANT(open_with(&other, "a", 1, "\x0a\0\0\1", 4, 7946, "", 0, sound, 6, 0) == SWIMTAB_DONE);
    WANT(swimtab_view_open(&view, WAIT) == SWIMTAB_DONE);
}

static void dump_of(const swimtab_node *writer) {
    stream_len = swimtab_dump(writer, NULL, 0).len;
    stream = room(stream_len);
    WANT(swimtab_dump(writer, stream, stream_len).status == SWIMTAB_DONE);
}

static void full_table(void) {
    for (size_t i = 0; i < size; i++) take(&node, &alives[order[i]]);
}

static void full_table_and_its_dump(void) {
    full_table();
    dump_of(&node);
}

static void full_table_and_a_small_dump(void) {
    full_table();
    take(&other, &alives[size / 2]);
    dump_of(&other);
}

static void two_tables(void) {
    full_table();
    for (size_t i = 0; i < size; i++) take(&other, &alives[i]);
}

static void watched_table(void) {
    WANT(swimtab_watch(&node, true) == SWIMTAB_DONE);
}

static void noted_table(void) {
    watched_table();
    full_table();
}

static void left_and_back(void) {
    for (size_t i = 0; i < size; i++) {
        take(&node, &deaths[i]);
        char name[32];
        name_of(i, name);
        const struct said again = alive_with_versions(name, 2, (uint8_t)i, 7946, "", sound);
        take(&node, &again);
    }
}

static void full_view(void) {
    for (size_t i = 0; i < size; i++) tell(i, &alives[order[i]]);
}

static void departed_view(void) {
    full_view();
    for (size_t i = 0; i < size; i++) tell(size + i, &deaths[i]);
}

static void suspects(void) {
    full_view();
    for (size_t i = 0; i < size; i++) deaths[i] = suspicion_of(0, i);
}

/* ---- what is measured */

static void take_all(void) {
    full_table();
}

static void next_change(void) {
    while (swimtab_next_change(&node, &member) == SWIMTAB_DONE) continue;
}

static void each_member(void) {
    for (size_t i = 0; swimtab_member(&node, i, &member) == SWIMTAB_DONE; i++) continue;
}

static void each_after(void) {
    member.name_len = 0;
    while (swimtab_after(&node, member.name, member.name_len, &member) == SWIMTAB_DONE) continue;
}

static void each_found(void) {
    char name[32];
    for (size_t i = 0; i < size; i++) {
        const size_t len = name_of(order[i], name);
        WANT(swimtab_find(&node, name, len, &member) == SWIMTAB_DONE);
    }
}

static void forget_each(void) {
    char name[32];
    for (size_t i = 0; i < size; i++) {
        const size_t len = name_of(order[i], name);
        WANT(swimtab_forget(&node, name, len) == SWIMTAB_DONE);
    }
}

static void readmit_each(void) {
    char name[32];
    for (size_t i = 0; i < size; i++) {
        const size_t len = name_of(order[i], name);
        WANT(swimtab_readmit(&node, name, len) == SWIMTAB_DONE);
    }
}

static void finish(void) {
    WANT(swimtab_finish(&other, stream, stream_len).status == SWIMTAB_DONE);
}

static void finish_again(void) {
    WANT(swimtab_finish(&node, stream, stream_len).status == SWIMTAB_DONE);
}

static void finish_each(void) {
    for (size_t i = 0; i < size; i++) WANT(swimtab_finish(&node, stream, stream_len).status == SWIMTAB_DONE);
}

static void relate(void) {
    WANT(swimtab_relate(&node, &other).relation == SWIMTAB_EQUAL);
}

static void write_all(void) {
    const size_t len = swimtab_list(&node, NULL, 0).len;
    char *text = room(len);
    WANT(swimtab_list(&node, text, len).status == SWIMTAB_DONE);
    dump_of(&node);
    free(text);
}

static void tell_all(void) {
    full_view();
}

static void tell_records(void) {
    swimtab_progress progress = SWIMTAB_PROGRESS_INIT;
    while (swimtab_view_merge(&view, 1, &progress, stream, stream_len, &shown_member).status == SWIMTAB_DONE) continue;
    WANT(swimtab_view_count(&view) == size + 1);
}

static void each_shown(void) {
    shown_member.name_len = 0;
    while (swimtab_view_after(&view, shown_member.name, shown_member.name_len, &shown_member) == SWIMTAB_DONE) continue;
}

static void forget_at_once(void) {
    WANT(swimtab_view_forget(&view, 2 * size + WAIT) == size);
}

static void forget_in_turn(void) {
    for (size_t i = 0; i < size; i++) swimtab_view_forget(&view, size + i + 1 + WAIT);
    WANT(swimtab_view_count(&view) == 0);
}

static void accuse(void) {
    for (size_t i = 0; i < size; i++) tell(size + i, &deaths[i]);
}

static void accusers(void) {
    accuse();
    char name[32];
    for (size_t i = 0; i < size; i++) swimtab_view_accuser(&view, "node-000000", 11, i, name, sizeof name);
}

static void offer_view(void) {
    swimtab_buffer buffer = SWIMTAB_BUFFER_INIT;
    WANT(swimtab_view_offer(&view, false, NULL, 0, &buffer) == SWIMTAB_DONE);
    swimtab_free(&buffer);
}

static void nothing(void) {}

static const struct {
    const char *name;
    void (*before)(void), (*work)(void);
} shapes[] = {
    {"take", nothing, take_all},
    {"known", full_table, take_all},
    {"noted", watched_table, take_all},
    {"next_change", noted_table, next_change},
    {"member", full_table, each_member},
    {"after", full_table, each_after},
    {"find", full_table, each_found},
    {"forget", noted_table, forget_each},
    {"readmit", left_and_back, readmit_each},
    {"finish", full_table_and_its_dump, finish},
    {"again", full_table_and_its_dump, finish_again},
    {"finishes", full_table_and_a_small_dump, finish_each},
    {"relate", two_tables, relate},
    {"written", full_table, write_all},
    {"view", nothing, tell_all},
    {"view_merge", full_table_and_its_dump, tell_records},
    {"view_after", full_view, each_shown},
    {"view_forget", departed_view, forget_at_once},
    {"view_forgets", departed_view, forget_in_turn},
    {"accusers", suspects, accusers},
    {"view_offer", full_view, offer_view},
};

__attribute__((noinline)) void measured(void (*work)(void));

void measured(void (*work)(void)) {
    work();
}

static double processor_time(void) {
    struct timespec time;
    clock_gettime(CLOCK_PROCESS_CPUTIME_ID, &time);
    return (double)time.tv_sec * 1e9 + (double)time.tv_nsec;
}

int main(int argc, char **argv) {
    if (argc != 3) return 2;
    size = strtoul(argv[2], NULL, 10);
    messages();
    for (size_t i = 0; i < sizeof shapes / sizeof *shapes; i++) {
        if (strcmp(shapes[i].name, argv[1]) != 0) continue;
        shapes[i].before();
        const double since = processor_time();
        measured(shapes[i].work);
        printf("%.0f\n", processor_time() - since);
        swimtab_view_close(&view);
        swimtab_close(&node);
        swimtab_close(&other);
        return test_failures ? 3 : 0;
    }
    return 2;
}
