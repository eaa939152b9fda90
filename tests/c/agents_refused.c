/* Refuses each allocation of a run of two agents in turn. Every call is done, or returns SWIMTAB_MEMORY; the agents go
 * on, show each other as alive in the end, and all memory is freed. What an agent put out is given all the same. Link it
 * with -Wl,--wrap=malloc,--wrap=realloc,--wrap=free. */
#include "refusing.h"

#include "agents.h"

static const uint8_t key[16] = {1, 2, 3};

/* Makes a call with the next allocations as they come, and once more if it was refused. */
#define MAKE(call)                                 \
    do {                                           \
        watching = true;                           \
        swimtab_status made = (call);              \
        if (made == SWIMTAB_MEMORY) made = (call); \
        watching = false;                          \
        WANT(made == SWIMTAB_DONE);                \
    } while (0)

/* Opens both, joins, says, updates, leaves and closes. Returns whether an allocation was refused. */
static bool is_refused_one(long number) {
    static swimtab_agent_out out, again;
    static swimtab_view_data data;
    swimtab_keyring keyring = SWIMTAB_KEYRING_INIT;
    swimtab_place first = place_of(0);
    memset(peers, 0, sizeof peers), link_count = 0, now = 5000000;
    WANT(swimtab_keyring_add(&keyring, key, 16) == SWIMTAB_DONE);
    until_refused = number;
    for (size_t i = 0; i < 2; i++) {
        swimtab_agent_config config = config_of(i);
        config.keys = &keyring, config.label = "dc", config.label_len = 2;
        config.is_uncompressed = number % 8 != 0; /* the other runs take longer */
        MAKE(swimtab_agent_open(&peers[i].agent, &config, now));
        MAKE(swimtab_agent_state(&peers[i].agent, now, "state", 5));
    }
    MAKE(swimtab_agent_join(&peers[1].agent, now, &first, 1));
    /* outputs are not given yet, and there are more: they are kept in their order */
    MAKE(swimtab_agent_update(&peers[1].agent, now, "meta", 4));
    MAKE(swimtab_agent_keys(&peers[1].agent, &keyring));
    MAKE(swimtab_agent_say(&peers[1].agent, now, "hello", 5));
    MAKE(swimtab_agent_find(&peers[1].agent, "n2", 2, &data));
    MAKE(swimtab_agent_after(&peers[1].agent, "n", 1, &data));
    memset(&out, 9, sizeof out), again = out;
    watching = true;
    swimtab_status status = swimtab_agent_next(&peers[1].agent, &out, &bytes);
    watching = false;
    if (status == SWIMTAB_MEMORY) {
        WANT(memcmp(&out, &again, sizeof out) == 0 && !bytes.kept.held);
        status = swimtab_agent_next(&peers[1].agent, &out, &bytes);
    }
    WANT(status == SWIMTAB_DONE && out.kind == SWIMTAB_OUT_CHANGED && memcmp(out.name, "n2", 2) == 0);
    watching = true;
    pass(3000);
    watching = false;
    bool was_refused = until_refused < 0;
    until_refused = -1;
    pass(15000);
    WANT(shows(0, "n1") == SWIMTAB_ALIVE && shows(0, "n2") == SWIMTAB_ALIVE);
    WANT(shows(1, "n1") == SWIMTAB_ALIVE && shows(1, "n2") == SWIMTAB_ALIVE);
    WANT(swimtab_agent_find(&peers[0].agent, "n2", 2, &data) == SWIMTAB_DONE && data.meta_len == 4);
    close_both();
    swimtab_keyring_close(&keyring);
    WANT(held == 0);
    return was_refused;
}

static void agents_outlive_each_refused_allocation(void) {
    long number = 0;
    while (test_failures == 0 && is_refused_one(number)) number++;
    if (test_failures) printf("    at allocation %ld\n", number);
    WANT(number > 300);
}

static const struct test tests[] = {
    {"agents outlive each refused allocation", agents_outlive_each_refused_allocation},
};

int main(void) {
    return run_tests(tests, sizeof tests / sizeof *tests);
}
