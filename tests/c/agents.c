/* Whole members: opened and refused, joined, told things, suspected, and leaving, in virtual time. */
#include "agents.h"

static void an_agent_is_opened_once(void) {
    int mine = 0;
    swimtab_agent agent = SWIMTAB_AGENT_INIT;
    swimtab_agent_config config = config_of(0);
    agent.user = &mine;
    WANT(swimtab_agent_open(&agent, &config, 1) == SWIMTAB_DONE && agent.held && agent.user == &mine);
    const swimtab_agent before = agent;
    WANT(swimtab_agent_open(&agent, &config, 1) == SWIMTAB_NODE_THERE && agent.at == before.at && agent.held);
    WANT(swimtab_agent_count(&agent) == 1);
    WANT(swimtab_agent_close(&agent) == SWIMTAB_DONE && !agent.held && agent.user == &mine);
    WANT(swimtab_agent_close(&agent) == SWIMTAB_NO_NODE);
}

/* Opening is refused with this status, and leaves the handle. */
static void refuses(swimtab_agent_config config, swimtab_status wanted) {
    swimtab_agent agent = SWIMTAB_AGENT_INIT;
    WANT(swimtab_agent_open(&agent, &config, 1) == wanted && !agent.held && !agent.at);
}

static void what_is_invalid_is_refused(void) {
    static uint8_t long_bytes[1025];
    swimtab_agent agent = SWIMTAB_AGENT_INIT;
    swimtab_agent_config config = config_of(0);
    WANT(swimtab_agent_open(NULL, &config, 1) == SWIMTAB_NO_NODE);
    WANT(swimtab_agent_open(&agent, NULL, 1) == SWIMTAB_BAD_SIZE && !agent.held);
    memset(long_bytes, 'x', sizeof long_bytes);
    config.size--, refuses(config, SWIMTAB_BAD_SIZE), config = config_of(0);
    config.size++, refuses(config, SWIMTAB_BAD_SIZE), config = config_of(0);
    config.name = NULL, refuses(config, SWIMTAB_NAME_EMPTY), config = config_of(0);
    config.name = long_bytes, config.name_len = 1025, refuses(config, SWIMTAB_NAME_TOO_LONG), config = config_of(0);
    config.addr_len = 3, refuses(config, SWIMTAB_BAD_ADDRESS), config = config_of(0);
    config.meta = long_bytes, config.meta_len = 513, refuses(config, SWIMTAB_META_TOO_LONG), config = config_of(0);
    config.vsn_len = 5, refuses(config, SWIMTAB_BAD_VERSIONS), config = config_of(0);
    config.label = long_bytes, config.label_len = 256, refuses(config, SWIMTAB_CIPHER_TOO_LONG), config = config_of(0);
    config.suspicion_mult = 7, refuses(config, SWIMTAB_BAD_MULTIPLIER), config = config_of(0);
    config.udp_buffer_size = 575, refuses(config, SWIMTAB_SHORT_DATAGRAMS), config = config_of(0);
    config.seed[0] = 0, refuses(config, SWIMTAB_NO_SEED);
    config.name = NULL, refuses(config, SWIMTAB_NO_SEED), config = config_of(0);
    /* the longest of each is accepted */
    config.name = long_bytes, config.name_len = 1024, config.meta = long_bytes, config.meta_len = 512;
    config.label = long_bytes, config.label_len = 255, config.suspicion_mult = 6, config.udp_buffer_size = 576;
    config.seed[0] = 0, config.seed[31] = 1;
    WANT(swimtab_agent_open(&agent, &config, 1) == SWIMTAB_DONE && swimtab_agent_close(&agent) == SWIMTAB_DONE);
}

/* Each call with this handle says that it has no agent, and changes nothing. */
static void has_none(swimtab_agent *agent) {
    static swimtab_agent_out out, no_out;
    static swimtab_view_data data, no_data;
    swimtab_buffer buffer = SWIMTAB_BUFFER_INIT;
    swimtab_place place = place_of(0);
    uint64_t stream = 7;
    memset(&out, 9, sizeof out), memset(&no_out, 9, sizeof no_out);
    memset(&data, 9, sizeof data), memset(&no_data, 9, sizeof no_data);
    WANT(swimtab_agent_close(agent) == SWIMTAB_NO_NODE);
    WANT(swimtab_agent_next(agent, &out, &buffer) == SWIMTAB_NO_NODE && memcmp(&out, &no_out, sizeof out) == 0);
    WANT(swimtab_agent_next(agent, NULL, NULL) == (agent ? SWIMTAB_TOO_SMALL : SWIMTAB_NO_NODE) && !buffer.kept.held);
    WANT(swimtab_agent_wake(agent) == UINT64_MAX && swimtab_agent_tick(agent, 1) == SWIMTAB_NO_NODE);
    WANT(swimtab_agent_packet(agent, 1, &place, "x", 1) == SWIMTAB_NO_NODE);
    WANT(swimtab_agent_accepted(agent, 1, &stream) == SWIMTAB_NO_NODE && stream == 7);
    WANT(swimtab_agent_connected(agent, 1, 2) == SWIMTAB_NO_NODE);
    WANT(swimtab_agent_received(agent, 1, 2, "x", 1) == SWIMTAB_NO_NODE);
    WANT(swimtab_agent_closed(agent, 1, 2) == SWIMTAB_NO_NODE);
    WANT(swimtab_agent_join(agent, 1, &place, 1) == SWIMTAB_NO_NODE);
    WANT(swimtab_agent_leave(agent, 1) == SWIMTAB_NO_NODE);
    WANT(swimtab_agent_update(agent, 1, "x", 1) == SWIMTAB_NO_NODE);
    WANT(swimtab_agent_say(agent, 1, "x", 1) == SWIMTAB_NO_NODE);
    WANT(swimtab_agent_state(agent, 1, "x", 1) == SWIMTAB_NO_NODE);
    WANT(swimtab_agent_keys(agent, NULL) == SWIMTAB_NO_NODE);
    WANT(swimtab_agent_count(agent) == 0);
    WANT(swimtab_agent_find(agent, "n1", 2, &data) == SWIMTAB_NO_NODE);
    WANT(swimtab_agent_after(agent, "", 0, &data) == SWIMTAB_NO_NODE && memcmp(&data, &no_data, sizeof data) == 0);
}

static void a_handle_without_an_agent_has_none(void) {
    swimtab_agent agent = SWIMTAB_AGENT_INIT;
    has_none(NULL);
    has_none(&agent);
    WANT(!agent.at && !agent.held && !agent.user);
}

static void nulls_are_harmless(void) {
    uint64_t stream = 0;
    swimtab_place nowhere = {{0}, 5, 1}, ip6 = {{0}, 16, 7946};
    open_both(NULL);
    swimtab_agent *agent = &peers[0].agent;
    WANT(swimtab_agent_packet(agent, now, NULL, "x", 1) == SWIMTAB_BAD_ADDRESS);
    WANT(swimtab_agent_packet(agent, now, &nowhere, "x", 1) == SWIMTAB_BAD_ADDRESS);
    WANT(swimtab_agent_packet(agent, now, &ip6, NULL, 9) == SWIMTAB_DONE);
    WANT(swimtab_agent_accepted(agent, now, NULL) == SWIMTAB_TOO_SMALL);
    WANT(swimtab_agent_accepted(agent, now, &stream) == SWIMTAB_DONE);
    uint64_t first = stream;
    WANT(swimtab_agent_accepted(agent, now, &stream) == SWIMTAB_DONE && stream % 2 == 1 && stream != first);
    WANT(swimtab_agent_received(agent, now, stream, NULL, 9) == SWIMTAB_DONE);
    WANT(swimtab_agent_join(agent, now, NULL, 9) == SWIMTAB_DONE);
    WANT(swimtab_agent_join(agent, now, &nowhere, 1) == SWIMTAB_BAD_ADDRESS);
    WANT(swimtab_agent_update(agent, now, NULL, 9) == SWIMTAB_DONE);
    WANT(swimtab_agent_say(agent, now, NULL, 9) == SWIMTAB_DONE);
    WANT(swimtab_agent_state(agent, now, NULL, 9) == SWIMTAB_DONE);
    WANT(swimtab_agent_find(agent, NULL, 9, NULL) == SWIMTAB_NO_MEMBER);
    WANT(swimtab_agent_find(agent, "n1", 2, NULL) == SWIMTAB_DONE);
    WANT(swimtab_agent_after(agent, NULL, 9, NULL) == SWIMTAB_DONE);
    settle();
    close_both();
}

static void two_agents_join(void) {
    open_both(NULL);
    WANT(peers[0].events[SWIMTAB_JOINED] == 1 && peers[0].events[SWIMTAB_KNOWN] == 1);
    WANT(strcmp(peers[0].state, "state 2") == 0 && strcmp(peers[1].state, "state 1") == 0);
    WANT(peers[0].last[SWIMTAB_OUT_USER_STATE].join && peers[1].kinds[SWIMTAB_OUT_USER_STATE] == 1);
    static swimtab_view_data data;
    for (size_t i = 0; i < 2; i++) {
        WANT(swimtab_agent_count(&peers[i].agent) == 2);
        WANT(shows(i, "n1") == SWIMTAB_ALIVE && shows(i, "n2") == SWIMTAB_ALIVE && shows(i, "n3") == 99);
        WANT(swimtab_agent_after(&peers[i].agent, "", 0, &data) == SWIMTAB_DONE && memcmp(data.name, "n1", 2) == 0);
        WANT(data.port == 7946 && data.addr_len == 4 && data.addr[3] == 1 && data.vsn_len == 6 && data.inc == 1);
        WANT(swimtab_agent_after(&peers[i].agent, "n1", 2, &data) == SWIMTAB_DONE && memcmp(data.name, "n2", 2) == 0);
        WANT(swimtab_agent_after(&peers[i].agent, "n2", 2, &data) == SWIMTAB_NO_MEMBER);
    }
    pass(10000);
    WANT(peers[0].kinds[SWIMTAB_OUT_SEND] > 5 && peers[1].kinds[SWIMTAB_OUT_SEND] > 5);
    WANT(peers[0].largest <= 1400 && peers[1].largest <= 1400);
    WANT(peers[0].events[SWIMTAB_SUSPECTED] == 0 && peers[1].events[SWIMTAB_SUSPECTED] == 0);
    WANT(link_count == 0);
    close_both();
}

static void what_the_program_says_is_told(void) {
    static uint8_t much[20971521];
    static swimtab_view_data data;
    open_both(NULL);
    WANT(swimtab_agent_say(&peers[0].agent, now, "hello", 5) == SWIMTAB_DONE);
    WANT(swimtab_agent_say(&peers[0].agent, now, much, 1400) == SWIMTAB_TOO_LONG);
    WANT(swimtab_agent_update(&peers[0].agent, now, "web", 3) == SWIMTAB_DONE);
    WANT(swimtab_agent_update(&peers[0].agent, now, much, 513) == SWIMTAB_META_TOO_LONG);
    WANT(swimtab_agent_state(&peers[0].agent, now, much, sizeof much) == SWIMTAB_USER_TOO_LONG);
    pass(2000);
    WANT(strcmp(peers[1].said, "hello") == 0);
    WANT(peers[1].events[SWIMTAB_UPDATED] == 1);
    WANT(swimtab_agent_find(&peers[1].agent, "n1", 2, &data) == SWIMTAB_DONE && data.inc == 2);
    WANT(data.meta_len == 3 && memcmp(data.meta, "web", 3) == 0);
    close_both();
}

static void a_member_that_is_cut_off_is_dead_and_refutes(void) {
    open_both(NULL);
    pass(3000);
    peers[1].is_cut = true;
    pass(10000);
    WANT(shows(0, "n2") == SWIMTAB_CONFIRM && peers[0].events[SWIMTAB_DEAD] == 1);
    WANT(peers[0].kinds[SWIMTAB_OUT_UNANSWERED] > 0);
    WANT(memcmp(peers[0].last[SWIMTAB_OUT_UNANSWERED].name, "n2", 2) == 0);
    WANT(peers[0].last[SWIMTAB_OUT_CHANGED].by_len == 2);
    peers[1].is_cut = false;
    pass(70000);
    WANT(shows(0, "n2") == SWIMTAB_ALIVE && shows(1, "n1") == SWIMTAB_ALIVE);
    close_both();
}

static void an_agent_leaves(void) {
    open_both(NULL);
    pass(3000);
    WANT(swimtab_agent_leave(&peers[1].agent, now) == SWIMTAB_DONE);
    pass(5000);
    WANT(peers[1].kinds[SWIMTAB_OUT_DEPARTED] == 1 && shows(0, "n2") == SWIMTAB_LEAVE);
    WANT(peers[0].events[SWIMTAB_LEFT] == 1);
    WANT(swimtab_agent_close(&peers[1].agent) == SWIMTAB_DONE);
    pass(70000);
    WANT(shows(0, "n2") == 99 && peers[0].last[SWIMTAB_OUT_FORGOTTEN].count == 1);
    close_both();
}

static void keys_are_rotated(void) {
    static const uint8_t keys[2][16] = {{1, 2, 3}, {4, 5, 6}};
    swimtab_keyring keyring = SWIMTAB_KEYRING_INIT;
    WANT(swimtab_keyring_add(&keyring, keys[0], 16) == SWIMTAB_DONE);
    open_both(&keyring);
    WANT(shows(0, "n2") == SWIMTAB_ALIVE);
    WANT(swimtab_keyring_add(&keyring, keys[1], 16) == SWIMTAB_DONE);
    for (size_t step = 0; step < 3; step++) {
        for (size_t i = 0; i < 2; i++) {
            WANT(swimtab_agent_keys(&peers[i].agent, &keyring) == SWIMTAB_DONE);
            pass(3000);
        }
        WANT((step == 0 ? swimtab_keyring_use(&keyring, 1) : swimtab_keyring_remove(&keyring, 1)) ==
             (step == 2 ? SWIMTAB_NO_ITEM : SWIMTAB_DONE));
    }
    WANT(peers[0].events[SWIMTAB_SUSPECTED] == 0 && peers[1].events[SWIMTAB_SUSPECTED] == 0);
    /* in the clear the first hears nothing of the second any more */
    WANT(swimtab_agent_keys(&peers[1].agent, NULL) == SWIMTAB_DONE);
    pass(20000);
    WANT(shows(0, "n2") == SWIMTAB_CONFIRM);
    WANT(swimtab_keyring_close(&keyring) == SWIMTAB_DONE);
    close_both();
}

/* What each speaks has to be within what both understand, of memberlist's protocol and of the program's own. */
static void members_that_do_not_understand_each_other_stay_apart(void) {
    static const struct { const char *versions[2]; bool is_merged; } rows[] = {
        {{"\1\5\2\2\5\4", "\1\5\2\2\5\4"}, true},  {{"\1\5\2\0\0\0", "\1\5\2\2\5\4"}, false},
        {{"\1\5\2\2\5\4", "\1\5\2\0\0\0"}, false}, {{"\1\5\2\2\5\4", "\2\5\5\2\5\5"}, true},
        {{"\1\5\1\2\5\4", "\2\5\2\2\5\4"}, false}, {{"\1\4\2\2\5\4", "\1\5\5\2\5\4"}, false},
        {{"\1\4\2\2\5\4", "\1\5\4\2\5\4"}, true},  {{"\1\5\2\2\5\2", "\1\5\2\3\5\3"}, false},
        {{"\1\5\2\2\4\4", "\1\5\2\2\5\5"}, false}, {{"\1\5\2\2\4\4", "\1\5\2\2\5\4"}, true},
    };
    const char *usual = versions[0];
    for (size_t row = 0; row < sizeof rows / sizeof *rows; row++) {
        versions[0] = rows[row].versions[0], versions[1] = rows[row].versions[1];
        open_both(NULL);
        pass(9000);
        WANT(shows(0, "n2") == (rows[row].is_merged ? SWIMTAB_ALIVE : 99));
        WANT(shows(1, "n1") == (rows[row].is_merged ? SWIMTAB_ALIVE : 99));
        WANT((peers[0].kinds[SWIMTAB_OUT_INCOMPATIBLE] > 0) == !rows[row].is_merged);
        WANT(peers[0].state[0] == (rows[row].is_merged ? 's' : 0) && peers[1].kinds[SWIMTAB_OUT_INCOMPATIBLE] == 0);
        WANT(rows[row].is_merged || peers[0].last[SWIMTAB_OUT_INCOMPATIBLE].stream % 2 == 1);
        close_both();
    }
    versions[0] = versions[1] = usual;
}

static const struct test tests[] = {
    {"an agent is opened once", an_agent_is_opened_once},
    {"what is invalid is refused", what_is_invalid_is_refused},
    {"a handle without an agent has none", a_handle_without_an_agent_has_none},
    {"NULLs are harmless", nulls_are_harmless},
    {"two agents join", two_agents_join},
    {"what the program says is told", what_the_program_says_is_told},
    {"a member that is cut off is dead, and refutes", a_member_that_is_cut_off_is_dead_and_refutes},
    {"an agent leaves", an_agent_leaves},
    {"keys are rotated", keys_are_rotated},
    {"members that do not understand each other stay apart", members_that_do_not_understand_each_other_stay_apart},
};

int main(void) {
    return run_tests(tests, sizeof tests / sizeof *tests);
}
