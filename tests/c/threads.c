/* Four handles on four threads, each opened on one thread, used on a second and closed on a third. */
#include "check.h"

#include <pthread.h>

enum { HANDLES = 4, ROUNDS = 500 };

static swimtab_node nodes[HANDLES];
static uint32_t failures[HANDLES];

static void *use(void *given) {
    swimtab_node *node = given;
    uint32_t *failed = &failures[node - nodes];
    uint8_t packet[256], dump[65536];
    for (uint32_t i = 1; i <= ROUNDS; i++) {
        char name[16];
        snprintf(name, sizeof name, "m%u", (unsigned)(i % 50));
        swimtab_written written = swimtab_suspect(node, name, strlen(name), i, packet, sizeof packet);
        *failed += written.status != 0 || swimtab_take(node, packet, written.len).status != 0;
        written = swimtab_suspect(node, "self", 4, i, packet, sizeof packet);
        *failed += written.status != 0 || swimtab_take(node, packet, written.len).status != 0;
        swimtab_refuted refuted = swimtab_refute(node);
        *failed += refuted.status != 0 || !refuted.due || refuted.inc != i + 1;
    }
    swimtab_written written = swimtab_dump(node, dump, sizeof dump);
    *failed += written.status != 0 || swimtab_finish(node, dump, written.len).status != 0;
    return NULL;
}

static void *close_all(void *given) {
    (void)given;
    for (size_t i = 0; i < HANDLES; i++) failures[i] += swimtab_close(&nodes[i]) != 0;
    return NULL;
}

static void handles_move_between_threads(void) {
    const uint8_t local[4] = {127, 0, 0, 1};
    pthread_t threads[HANDLES], last;
    for (size_t i = 0; i < HANDLES; i++)
        WANT(open_with(&nodes[i], "self", 4, local, 4, 1, NULL, 0, NULL, 0, 1) == 0);
    for (size_t i = 0; i < HANDLES; i++) WANT(pthread_create(&threads[i], NULL, use, &nodes[i]) == 0);
    for (size_t i = 0; i < HANDLES; i++) WANT(pthread_join(threads[i], NULL) == 0);
    for (size_t i = 0; i < HANDLES; i++) {
        WANT(swimtab_count(&nodes[i]) == 51);
        WANT(swimtab_relate(&nodes[0], &nodes[i]).relation == SWIMTAB_EQUAL);
        WANT(swimtab_relate(&nodes[0], &nodes[i]).status == SWIMTAB_DONE);
    }
    WANT(pthread_create(&last, NULL, close_all, NULL) == 0 && pthread_join(last, NULL) == 0);
    for (size_t i = 0; i < HANDLES; i++) WANT(failures[i] == 0);
}

int main(void) {
    static const struct test tests[] = {{"handles move between threads", handles_move_between_threads}};
    return run_tests(tests, 1);
}
