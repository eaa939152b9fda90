/* Handles, the members of a node, its listing, and how two nodes relate. The expected values are those
 * of docs/messages.md. */
#include "check.h"

static void versions_agree(void) {
    char text[32];
    snprintf(text, sizeof text, "%d.%d.%d", SWIMTAB_VERSION_MAJOR, SWIMTAB_VERSION_MINOR,
             SWIMTAB_VERSION_PATCH);
    WANT(strcmp(text, SWIMTAB_VERSION) == 0);
    WANT(SWIMTAB_VERSION_NUMBER ==
         10000 * SWIMTAB_VERSION_MAJOR + 100 * SWIMTAB_VERSION_MINOR + SWIMTAB_VERSION_PATCH);
    WANT(swimtab_version() == SWIMTAB_VERSION_NUMBER);
}

static void statuses_have_names(void) {
    WANT(strcmp(swimtab_fault_name(SWIMTAB_DONE), "Done") == 0);
    WANT(strcmp(swimtab_fault_name(SWIMTAB_GONE), "Gone") == 0);
    WANT(strcmp(swimtab_fault_name(SWIMTAB_NO_NODE), "NoNode") == 0);
    WANT(strcmp(swimtab_fault_name(SWIMTAB_NODE_THERE), "NodeThere") == 0);
    WANT(strcmp(swimtab_fault_name(SWIMTAB_TOO_SMALL), "TooSmall") == 0);
    WANT(strcmp(swimtab_fault_name(SWIMTAB_NO_MEMBER), "NoMember") == 0);
    WANT(strcmp(swimtab_fault_name(SWIMTAB_OWN_NAME), "OwnName") == 0);
    WANT(strcmp(swimtab_fault_name(SWIMTAB_TOO_MANY_PACKETS), "TooManyPackets") == 0);
    WANT(strcmp(swimtab_fault_name(SWIMTAB_BAD_FORM), "BadForm") == 0);
    WANT(strcmp(swimtab_fault_name(SWIMTAB_BAD_SIZE), "BadSize") == 0);
    WANT(strcmp(swimtab_fault_name(63), "Unknown") == 0);
    WANT(strcmp(swimtab_fault_name(UINT32_MAX), "Unknown") == 0);
}

/* Whether a call of the library can return this status. */
static bool is_answered(uint32_t status) {
    return status <= 8 || (status >= 10 && status <= 25) || (status >= 40 && status <= 48) ||
           (status >= 50 && status <= 57) || status == 59 || (status >= 64 && status <= 77);
}

static void statuses_have_sentences(void) {
    static const char none[] = "There is no such status.";
    WANT(strcmp(swimtab_fault_text(SWIMTAB_DONE), "Done.") == 0);
    WANT(strcmp(swimtab_fault_text(SWIMTAB_MEMORY), "Out of memory.") == 0);
    WANT(strcmp(swimtab_fault_text(SWIMTAB_BAD_LABEL), "The label is empty.") == 0);
    WANT(strcmp(swimtab_fault_text(SWIMTAB_BAD_FORM), "There is no such form of a stream, or it has no user state.") == 0);
    for (uint32_t status = 0; status < 256; status++) {
        const char *text = swimtab_fault_text(status);
        WANT((strcmp(text, none) == 0) != is_answered(status));
        WANT(text[0] >= 'A' && text[0] <= 'Z' && text[strlen(text) - 1] == '.');
    }
    WANT(strcmp(swimtab_fault_text(UINT32_MAX), none) == 0);
}

/* Each call that reads or changes a node, on a handle without one. */
static void refuses_to_look_without_a_node(swimtab_node *none) {
    swimtab_member_data member;
    WANT(swimtab_count(none) == 0);
    WANT(swimtab_member(none, 0, &member) == SWIMTAB_NO_NODE);
    WANT(swimtab_find(none, "a", 1, &member) == SWIMTAB_NO_NODE);
    WANT(swimtab_watch(none, true) == SWIMTAB_NO_NODE);
    WANT(swimtab_watch(none, false) == SWIMTAB_NO_NODE);
    WANT(swimtab_next_change(none, &member) == SWIMTAB_NO_NODE);
    WANT(swimtab_next_change(none, NULL) == SWIMTAB_NO_NODE);
    WANT(swimtab_forget(none, "a", 1) == SWIMTAB_NO_NODE);
    WANT(swimtab_forget(none, NULL, 0) == SWIMTAB_NO_NODE);
}

/* Each call that fills a buffer, on a handle without a node. */
static void fills_nothing_without_a_node(swimtab_node *none) {
    swimtab_buffer buffer = SWIMTAB_BUFFER_INIT;
    WANT(swimtab_offer_new(none, true, SWIMTAB_CANONICAL, NULL, 0, &buffer) == SWIMTAB_NO_NODE);
    WANT(swimtab_answer_new(none, "", 0, SWIMTAB_CANONICAL, NULL, 0, &buffer).status == SWIMTAB_NO_NODE);
    WANT(swimtab_list_new(none, &buffer) == SWIMTAB_NO_NODE);
    WANT(buffer.at == NULL && buffer.len == 0 && !buffer.kept.held);
    WANT(swimtab_list_new(none, NULL) == (none ? SWIMTAB_TOO_SMALL : SWIMTAB_NO_NODE));
}

/* Each call on a handle without a node. */
static void refuses_without_a_node(swimtab_node *none) {
    uint8_t out[4] = {7, 7, 7, 7};
    swimtab_node other = opened("other", 1, 0);
    WANT(swimtab_close(none) == SWIMTAB_NO_NODE);
    WANT(swimtab_take(none, out, 4).status == SWIMTAB_NO_NODE && !swimtab_take(none, out, 4).news);
    WANT(swimtab_refute(none).status == SWIMTAB_NO_NODE);
    WANT(swimtab_alive(none, 1, out, 4).status == SWIMTAB_NO_NODE);
    WANT(swimtab_suspect(none, "a", 1, 1, out, 4).status == SWIMTAB_NO_NODE);
    WANT(swimtab_confirm(none, "a", 1, 1, out, 4).status == SWIMTAB_NO_NODE);
    WANT(swimtab_leave(none, 1, out, 4).status == SWIMTAB_NO_NODE);
    WANT(swimtab_offer(none, true, SWIMTAB_CANONICAL, NULL, 0, out, 4).status == SWIMTAB_NO_NODE);
    WANT(swimtab_dump(none, out, 4).status == SWIMTAB_NO_NODE);
    WANT(swimtab_answer(none, "", 0, SWIMTAB_CANONICAL, NULL, 0, out, 4).status == SWIMTAB_NO_NODE);
    WANT(swimtab_finish(none, "", 0).status == SWIMTAB_NO_NODE);
    refuses_to_look_without_a_node(none);
    fills_nothing_without_a_node(none);
    WANT(swimtab_list(none, out, 4).status == SWIMTAB_NO_NODE);
    WANT(swimtab_relate(none, none).status == SWIMTAB_NO_NODE);
    WANT(swimtab_relate(none, &other).status == SWIMTAB_NO_NODE);
    WANT(swimtab_relate(&other, none).status == SWIMTAB_NO_NODE);
    WANT(out[0] == 7 && out[3] == 7 && lists(&other, "other alive 0 0/7f000001/1//\n"));
    WANT(swimtab_close(&other) == 0);
}

static void a_handle_without_a_node_has_none(void) {
    swimtab_node fresh = SWIMTAB_NODE_INIT, zeroed, closed = opened("a", 1, 0);
    memset(&zeroed, 0, sizeof zeroed);
    WANT(swimtab_close(&closed) == SWIMTAB_DONE);
    refuses_without_a_node(&fresh);
    refuses_without_a_node(&zeroed);
    refuses_without_a_node(&closed);
    refuses_without_a_node(NULL);
    WANT(open_with(NULL, "a", 1, local_addr, 4, 1, NULL, 0, NULL, 0, 0) == SWIMTAB_NO_NODE);
}

/* Keyrings, and packets of a cluster, with NULL for each argument that may be NULL; tests/c/sealing.c has the rest. */
static void keyrings_and_packets_may_be_null(void) {
    swimtab_keyring keyring = SWIMTAB_KEYRING_INIT;
    const uint8_t packet[2] = {7, 0};
    uint8_t out[4] = {7, 7, 7, 7};
    WANT(swimtab_keyring_add(NULL, "0123456789abcdef", 16) == SWIMTAB_NO_NODE);
    WANT(swimtab_keyring_close(NULL) == SWIMTAB_NO_NODE);
    WANT(swimtab_keyring_close(&keyring) == SWIMTAB_NO_NODE);
    WANT(swimtab_keyring_add(&keyring, NULL, 16) == SWIMTAB_BAD_KEY && !keyring.held);
    WANT(swimtab_keyring_accept_clear(NULL) == SWIMTAB_NO_NODE);
    WANT(swimtab_keyring_accept_clear(&keyring) == SWIMTAB_NO_NODE && !keyring.held);
    WANT(swimtab_keyring_add(&keyring, "0123456789abcdef", 16) == SWIMTAB_DONE && keyring.held);
    WANT(swimtab_keyring_accept_clear(&keyring) == SWIMTAB_DONE && keyring.held);
    WANT(swimtab_keyring_close(&keyring) == SWIMTAB_DONE);
    WANT(swimtab_keyring_close(&keyring) == SWIMTAB_NO_NODE);
    WANT(swimtab_unwrap(NULL, NULL, 5, out, 4).status == SWIMTAB_ENDED);
    WANT(swimtab_unwrap(NULL, packet, 2, NULL, 4).status == SWIMTAB_TOO_SMALL);
    WANT(swimtab_unwrap(NULL, packet, 2, NULL, 4).len == 2);
    WANT(swimtab_seal(NULL, NULL, NULL, 9, packet, 2, NULL, 4).len == 2);
    WANT(swimtab_seal(NULL, NULL, NULL, 9, NULL, 9, out, 4).status == SWIMTAB_DONE && out[0] == 7);
    swimtab_written written = swimtab_seal(NULL, NULL, "", 0, packet, 2, out, 4);
    WANT(written.status == SWIMTAB_DONE && is_hex(out, written.len, "0700") && out[2] == 7);
    out[0] = 9;
    written = written_of(swimtab_unwrap(&keyring, packet, 2, out, 4));
    WANT(written.status == SWIMTAB_DONE && is_hex(out, written.len, "0700") && out[2] == 7);
}

/* A buffer that is NULL has no room, whatever length is passed with it. */
static void no_buffer_has_no_room(void) {
    swimtab_node node = opened("a", 1, 0);
    swimtab_details b = SWIMTAB_DETAILS_INIT;
    b.name = "b", b.name_len = 1, b.addr = local_addr, b.addr_len = 4;
    const uint8_t packet[20] = {3, 0x81, 0xa4, 'N', 'o', 'd', 'e', 0xa1, 'b'};
    const size_t len = 9;
    const swimtab_written written[] = {
        swimtab_alive(&node, 1, NULL, 99),
        swimtab_alive_of(&b, NULL, 99),
        swimtab_suspect(&node, "b", 1, 1, NULL, 99),
        swimtab_confirm(&node, "b", 1, 1, NULL, 99),
        swimtab_leave(&node, 1, NULL, 99),
        swimtab_suspect_of("c", 1, "b", 1, 1, NULL, 99),
        swimtab_dead_of("c", 1, "b", 1, 1, NULL, 99),
        swimtab_compound(packet, len, &len, 1, NULL, 99),
        swimtab_ping_of(1, "b", 1, NULL, NULL, 99),
        swimtab_indirect_of(1, &b, true, NULL, NULL, 99),
        swimtab_ack_of(1, NULL, 9, NULL, 99),
        swimtab_nack_of(1, NULL, 99),
        swimtab_user_of(NULL, 9, NULL, 99),
        swimtab_offer(&node, false, SWIMTAB_CANONICAL, NULL, 9, NULL, 999),
        swimtab_dump(&node, NULL, 999),
        swimtab_list(&node, NULL, 99),
        swimtab_seal_stream(NULL, NULL, NULL, 9, false, packet, len, NULL, 99),
    };
    for (size_t i = 0; i < sizeof written / sizeof *written; i++)
        WANT(written[i].status == SWIMTAB_TOO_SMALL && written[i].len > 0);
    WANT(swimtab_close(&node) == 0);
}

static void a_closed_handle_opens_again(void) {
    swimtab_node node = opened("a", 1, 0);
    WANT(take_hex(&node, SUSPECT_B_1) == 0 && swimtab_count(&node) == 2);
    WANT(swimtab_close(&node) == 0 && swimtab_close(&node) == SWIMTAB_NO_NODE);
    WANT(swimtab_count(&node) == 0 && take_hex(&node, SUSPECT_B_1) == SWIMTAB_NO_NODE);
    WANT(open_with(&node, "", 0, NULL, 0, 1, NULL, 0, NULL, 0, 0) == SWIMTAB_NAME_EMPTY);
    WANT(swimtab_close(&node) == SWIMTAB_NO_NODE);
    node = opened("b", 2, 3);
    WANT(lists(&node, "b alive 3 3/7f000001/2//\n"));
    WANT(swimtab_close(&node) == 0);
}

static void openings_are_refused(void) {
    static const struct {
        size_t name_len, addr_len, meta_len, vsn_len;
        uint32_t status;
    } cases[] = {
        {0, 4, 0, 0, SWIMTAB_NAME_EMPTY},      {1025, 4, 0, 0, SWIMTAB_NAME_TOO_LONG},
        {1, 0, 0, 0, SWIMTAB_BAD_ADDRESS},     {1, 3, 0, 0, SWIMTAB_BAD_ADDRESS},
        {1, 5, 0, 0, SWIMTAB_BAD_ADDRESS},     {1, 17, 0, 0, SWIMTAB_BAD_ADDRESS},
        {1, 4, 513, 0, SWIMTAB_META_TOO_LONG}, {1, 16, 0, 1, SWIMTAB_BAD_VERSIONS},
        {1, 4, 0, 5, SWIMTAB_BAD_VERSIONS},    {1, 4, 0, 7, SWIMTAB_BAD_VERSIONS},
    };
    for (size_t i = 0; i < sizeof cases / sizeof *cases; i++) {
        swimtab_node node = SWIMTAB_NODE_INIT;
        struct bytes name = bytes_of_size(cases[i].name_len, 'n'), addr = bytes_of_size(cases[i].addr_len, 1),
                     meta = bytes_of_size(cases[i].meta_len, 2), vsn = bytes_of_size(cases[i].vsn_len, 3);
        WANT(open_with(&node, name.at, name.len, addr.at, addr.len, 1, meta.at, meta.len, vsn.at,
                          vsn.len, 0) == cases[i].status);
        WANT(swimtab_close(&node) == SWIMTAB_NO_NODE);
        free(name.at), free(addr.at), free(meta.at), free(vsn.at);
    }
    swimtab_node node = SWIMTAB_NODE_INIT;
    WANT(open_with(&node, NULL, 1, local_addr, 4, 1, NULL, 0, NULL, 0, 0) == SWIMTAB_NAME_EMPTY);
    WANT(open_with(&node, "a", 1, NULL, 4, 1, NULL, 0, NULL, 0, 0) == SWIMTAB_BAD_ADDRESS);
    node = opened("a", 7946, 0);
    WANT(open_with(&node, "b", 1, local_addr, 4, 1, NULL, 0, NULL, 0, 0) == SWIMTAB_NODE_THERE);
    WANT(open_with(&node, NULL, 0, NULL, 0, 1, NULL, 0, NULL, 0, 0) == SWIMTAB_NODE_THERE);
    WANT(open_with(&node, "b", 1, NULL, 0, 1, NULL, 0, NULL, 0, 0) == SWIMTAB_NODE_THERE);
    WANT(lists(&node, LIST_A_0));
    WANT(swimtab_close(&node) == 0);
}

static void the_longest_values_are_copied_out(void) {
    struct bytes name = bytes_of_size(1024, 0), addr = bytes_of_size(16, 1), meta = bytes_of_size(512, 2),
                 vsn = bytes_of_size(6, 3);
    for (size_t i = 0; i < name.len; i++) name.at[i] = (uint8_t)i;
    swimtab_node node = SWIMTAB_NODE_INIT;
    WANT(open_with(&node, name.at, name.len, addr.at, addr.len, 65535, meta.at, meta.len, vsn.at, vsn.len,
                      UINT32_MAX) == 0);
    swimtab_member_data member;
    memset(&member, 9, sizeof member);
    WANT(swimtab_find(&node, name.at, name.len, &member) == 0);
    WANT(member.state == SWIMTAB_ALIVE && member.inc == UINT32_MAX);
    WANT(member.has_address && member.address_inc == UINT32_MAX && member.port == 65535);
    WANT(member.name_len == 1024 && memcmp(member.name, name.at, 1024) == 0);
    WANT(member.addr_len == 16 && memcmp(member.addr, addr.at, 16) == 0);
    WANT(member.meta_len == 512 && memcmp(member.meta, meta.at, 512) == 0);
    WANT(member.vsn_len == 6 && memcmp(member.vsn, vsn.at, 6) == 0);
    WANT(swimtab_close(&node) == 0);
    free(name.at), free(addr.at), free(meta.at), free(vsn.at);
}

/* By its name, and as the one after `a`, b is copied as it was by its place. */
static void copies_the_same(const swimtab_node *node, const swimtab_member_data *by_place) {
    swimtab_member_data found, next;
    memset(&found, 9, sizeof found);
    memset(&next, 9, sizeof next);
    WANT(swimtab_find(node, "b", 1, &found) == 0 && memcmp(&found, by_place, sizeof found) == 0);
    WANT(swimtab_after(node, "a", 1, &next) == 0 && memcmp(&next, by_place, sizeof next) == 0);
    WANT(swimtab_after(node, "b!", 2, &next) == SWIMTAB_NO_MEMBER && memcmp(&next, by_place, sizeof next) == 0);
}

static void members_are_found_by_place_and_by_name(void) {
    swimtab_node node = opened("b", 7946, 3);
    swimtab_member_data member;
    WANT(take_hex(&node, SUSPECT_A_5) == 0);
    WANT(take_hex(&node, "0583a446726f6da0ab496e6361726e6174696f6e02a44e6f6465a26221") == 0);
    WANT(swimtab_count(&node) == 3);
    memset(&member, 9, sizeof member);
    WANT(swimtab_member(&node, 0, &member) == 0);
    WANT(member.name_len == 1 && member.name[0] == 'a' && member.name[1] == 9);
    WANT(member.state == SWIMTAB_SUSPECT && member.inc == 5);
    WANT(!member.has_address && member.address_inc == 0 && member.port == 0);
    WANT(member.addr_len == 0 && member.meta_len == 0 && member.vsn_len == 0);
    memset(&member, 9, sizeof member);
    WANT(swimtab_member(&node, 1, &member) == 0);
    WANT(member.name_len == 1 && member.name[0] == 'b' && member.state == SWIMTAB_ALIVE && member.inc == 3);
    WANT(member.has_address && member.address_inc == 3 && member.port == 7946);
    WANT(member.addr_len == 4 && memcmp(member.addr, local_addr, 4) == 0 && member.addr[4] == 9);
    WANT(member.meta_len == 0 && member.meta[0] == 9 && member.vsn_len == 0 && member.vsn[0] == 9);
    copies_the_same(&node, &member);
    WANT(swimtab_member(&node, 2, &member) == 0);
    WANT(member.name_len == 2 && memcmp(member.name, "b!", 2) == 0 && member.state == SWIMTAB_CONFIRM);
    swimtab_member_data before = member;
    WANT(swimtab_member(&node, 3, &member) == SWIMTAB_NO_MEMBER);
    WANT(swimtab_member(&node, SIZE_MAX, &member) == SWIMTAB_NO_MEMBER);
    WANT(swimtab_find(&node, "c", 1, &member) == SWIMTAB_NO_MEMBER);
    WANT(swimtab_find(&node, "", 0, &member) == SWIMTAB_NO_MEMBER);
    WANT(swimtab_find(&node, NULL, 1, &member) == SWIMTAB_NO_MEMBER);
    WANT(memcmp(&before, &member, sizeof member) == 0);
    WANT(swimtab_member(&node, 2, NULL) == 0 && swimtab_member(&node, 3, NULL) == SWIMTAB_NO_MEMBER);
    WANT(swimtab_find(&node, "a", 1, &member) == 0 && member.state == SWIMTAB_SUSPECT);
    WANT(swimtab_find(&node, "b!", 2, NULL) == 0);
    WANT(take_hex(&node, LEAVE_A_0) == 0 && swimtab_find(&node, "a", 1, &member) == 0);
    WANT(member.state == SWIMTAB_LEAVE && member.inc == 0);
    WANT(swimtab_close(&node) == 0);
}

/* Whether a is shown as a member that came back. */
static bool a_came_back(const swimtab_node *node) {
    static const uint8_t zeros[32];
    swimtab_member_data member;
    memset(&member, 9, sizeof member);
    WANT(swimtab_find(node, "a", 1, &member) == SWIMTAB_DONE);
    WANT(memcmp(member.reserved, zeros, sizeof zeros) == 0);
    return member.came_back;
}

static void members_that_come_back_are_told(void) {
    swimtab_node node = opened("b", 7946, 0);
    WANT(take_hex(&node, CONFIRM_A_5) == 0 && !a_came_back(&node));
    WANT(take_hex(&node, ALIVE_A_4) == 0 && !a_came_back(&node));
    WANT(take_hex(&node, ALIVE_A_6) == 0 && a_came_back(&node));
    WANT(lists(&node, "a confirm 5 6/7f000001/7947//\nb alive 0 0/7f000001/7946//\n"));
    WANT(swimtab_close(&node) == 0);
    node = opened("b", 7946, 0);
    WANT(take_hex(&node, ALIVE_A_4) == 0 && !a_came_back(&node));
    WANT(take_hex(&node, SUSPECT_A_5) == 0 && !a_came_back(&node));
    WANT(take_hex(&node, LEAVE_A_0) == 0 && a_came_back(&node));
    WANT(swimtab_close(&node) == 0);
}

static swimtab_written write_list(swimtab_node *node, uint8_t *out, size_t out_len) {
    return swimtab_list(node, out, out_len);
}

static void a_listing_is_written_where_it_fits(void) {
    swimtab_node node = opened("a", 7946, 0);
    writes(&node, write_list, "6120616c697665203020302f37663030303030312f373934362f2f0a");
    WANT(lists(&node, LIST_A_0));
    WANT(swimtab_close(&node) == 0);
}

static void a_whole_exchange_levels_two_members(void) {
    swimtab_node first = opened("a", 7946, 0), second = opened("b", 7947, 2);
    uint8_t offer[1024], reply[1024];
    WANT(take_hex(&first, "0583a446726f6da162ab496e6361726e6174696f6e03a44e6f6465a163") == 0);
    swimtab_related relation = swimtab_relate(&first, &second);
    WANT(relation.status == 0 && relation.relation == SWIMTAB_APART);
    swimtab_written offered = swimtab_offer(&first, true, SWIMTAB_CANONICAL, NULL, 0, offer, sizeof offer);
    swimtab_exchanged answered = swimtab_answer(&second, offer, offered.len, SWIMTAB_CANONICAL, NULL, 0, reply, sizeof reply);
    WANT(offered.status == 0 && answered.status == 0 && answered.join && answered.used == offered.len);
    relation = swimtab_relate(&first, &second);
    WANT(relation.status == 0 && relation.relation == SWIMTAB_BEHIND);
    relation = swimtab_relate(&second, &first);
    WANT(relation.status == 0 && relation.relation == SWIMTAB_AHEAD);
    swimtab_exchanged finished = swimtab_finish(&first, reply, answered.len);
    WANT(finished.status == 0 && finished.join && finished.used == answered.len);
    relation = swimtab_relate(&first, &second);
    WANT(relation.status == 0 && relation.relation == SWIMTAB_EQUAL);
    relation = swimtab_relate(&first, &first);
    WANT(relation.status == 0 && relation.relation == SWIMTAB_EQUAL);
    WANT(lists(&first, LIST_A_0 "b alive 2 2/7f000001/7947//\nc confirm 3 -\n"));
    WANT(lists(&second, LIST_A_0 "b alive 2 2/7f000001/7947//\nc confirm 3 -\n"));
    WANT(swimtab_close(&first) == 0 && swimtab_close(&second) == 0);
}

int main(void) {
    static const struct test tests[] = {
        {"versions agree", versions_agree},
        {"statuses have names", statuses_have_names},
        {"statuses have sentences", statuses_have_sentences},
        {"a handle without a node has none", a_handle_without_a_node_has_none},
        {"keyrings and packets may be NULL", keyrings_and_packets_may_be_null},
        {"no buffer has no room", no_buffer_has_no_room},
        {"a closed handle opens again", a_closed_handle_opens_again},
        {"openings are refused", openings_are_refused},
        {"the longest values are copied out", the_longest_values_are_copied_out},
        {"members are found by place and by name", members_are_found_by_place_and_by_name},
        {"members that come back are told", members_that_come_back_are_told},
        {"a listing is written where it fits", a_listing_is_written_where_it_fits},
        {"a whole exchange levels two members", a_whole_exchange_levels_two_members},
    };
    return run_tests(tests, sizeof tests / sizeof *tests);
}
