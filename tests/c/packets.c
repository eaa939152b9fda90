/* Packets: taken in, refused and written, with every buffer one byte too small. The expected bytes and
 * faults are those of docs/messages.md. */
#include "check.h"

static void packets_are_taken_in(void) {
    swimtab_node node = opened("b", 7946, 0);
    WANT(take_hex(&node, SUSPECT_A_5) == 0);
    WANT(lists(&node, "a suspect 5 -\nb alive 0 0/7f000001/7946//\n"));
    WANT(take_hex(&node, ALIVE_A_4) == 0);
    WANT(take_hex(&node, ALIVE_A_4) == 0);
    WANT(lists(&node, "a suspect 5 4/7f000001/7947//\nb alive 0 0/7f000001/7946//\n"));
    WANT(take_hex(&node, LEAVE_A_0) == 0);
    WANT(lists(&node, "a leave 0 4/7f000001/7947//\nb alive 0 0/7f000001/7946//\n"));
    /* a compound packet: a ping, which is skipped, and the suspicion of b, which is the node itself */
    WANT(take_hex(&node, "07020003001d" "008080" SUSPECT_B_1) == 0);
    WANT(lists(&node, "a leave 0 4/7f000001/7947//\nb suspect 1 0/7f000001/7946//\n"));
    WANT(swimtab_close(&node) == 0);
}

static void packets_tell_whether_they_have_news(void) {
    swimtab_node node = opened("b", 7946, 0);
    WANT(has_news(&node, SUSPECT_A_5) && !has_news(&node, SUSPECT_A_5));
    /* the newest address of a suspected member is news, though it stays suspected */
    WANT(has_news(&node, ALIVE_A_4) && !has_news(&node, ALIVE_A_4));
    /* the same map with a longer spelling of the incarnation is not news */
    WANT(!has_news(&node, "0383a446726f6da178ab496e6361726e6174696f6ecc05a44e6f6465a161"));
    WANT(has_news(&node, CONFIRM_A_0) && has_news(&node, LEAVE_A_0) && !has_news(&node, CONFIRM_A_0));
    WANT(!has_news(&node, SUSPECT_A_5));
    /* compound packets: an empty one, one with only a ping, one that is known, and one with one new part */
    WANT(!has_news(&node, "0700") && !has_news(&node, "07010003" "008080"));
    WANT(!has_news(&node, "0702001d001d" SUSPECT_A_5 CONFIRM_A_0));
    WANT(has_news(&node, "0702001d001d" SUSPECT_A_5 SUSPECT_B_1));
    WANT(!has_news(&node, "0702001d001d" SUSPECT_A_5 SUSPECT_B_1));
    WANT(lists(&node, "a leave 0 4/7f000001/7947//\nb suspect 1 0/7f000001/7946//\n"));
    WANT(swimtab_close(&node) == 0);
}

/* Bytes that are not a packet, and their faults. */
static const struct {
    const char *bytes;
    uint32_t status;
} no_packets[] = {
    {"", SWIMTAB_ENDED},
    {"03", SWIMTAB_ENDED},
    {"0383a446726f6da178ab496e6361726e6174696f6e05a44e6f6465a1", SWIMTAB_ENDED},
    {"0381ab496e6361726e6174696f6ea0", SWIMTAB_NOT_UNSIGNED},
    {"0381ab496e6361726e6174696f6eff", SWIMTAB_NOT_UNSIGNED},
    {"0381ab496e6361726e6174696f6ecf0000000100000000", SWIMTAB_OUT_OF_RANGE},
    {"0381a44e6f646505", SWIMTAB_NOT_RAW},
    {"0481a441646472c411", SWIMTAB_TOO_LONG},
    {"0305", SWIMTAB_NOT_MAP},
    {"0384", SWIMTAB_MAP_COUNT},
    {"0380", SWIMTAB_NAME_EMPTY},
    {"0481a44e6f6465a161", SWIMTAB_BAD_ADDRESS},
    {"0483a441646472a47f000001a44e6f6465a161a356736ea101", SWIMTAB_BAD_VERSIONS},
    {"00", SWIMTAB_WRONG_TYPE},
    {"06", SWIMTAB_WRONG_TYPE},
    {"09", SWIMTAB_WRONG_TYPE},
    {"0381a141", SWIMTAB_UNKNOWN_KEY},
    {"0382a44e6f6465a161a44e6f6465a162", SWIMTAB_DUPLICATE_KEY},
    {"0381a44e6f6465a16100", SWIMTAB_TRAILING},
    {"0701", SWIMTAB_ENDED},
    {"0702001d0001" SUSPECT_B_1 "03", SWIMTAB_ENDED},
    {"0702001d0002" SUSPECT_B_1 "0380", SWIMTAB_NAME_EMPTY},
    {"0701001d" SUSPECT_B_1 "00", SWIMTAB_TRAILING},
};

static void what_is_no_packet_is_refused(void) {
    swimtab_node node = opened("a", 7946, 0);
    for (size_t i = 0; i < sizeof no_packets / sizeof *no_packets; i++) {
        swimtab_taken taken = taken_of(&node, no_packets[i].bytes);
        uint32_t status = taken.status;
        if (status != no_packets[i].status) printf("    %s: %s\n", no_packets[i].bytes, swimtab_fault_name(status));
        WANT(status == no_packets[i].status && !taken.news);
        WANT(lists(&node, LIST_A_0));
    }
    WANT(swimtab_take(&node, NULL, 0).status == SWIMTAB_ENDED && swimtab_take(&node, NULL, 5).status == SWIMTAB_ENDED);
    WANT(swimtab_close(&node) == 0);
}

static swimtab_written write_alive(swimtab_node *node, uint8_t *out, size_t out_len) {
    return swimtab_alive(node, 300, out, out_len);
}
static swimtab_written write_suspect(swimtab_node *node, uint8_t *out, size_t out_len) {
    return swimtab_suspect(node, "b", 1, 70000, out, out_len);
}
static swimtab_written write_confirm(swimtab_node *node, uint8_t *out, size_t out_len) {
    return swimtab_confirm(node, "b", 1, 200, out, out_len);
}
static swimtab_written write_leave(swimtab_node *node, uint8_t *out, size_t out_len) {
    return swimtab_leave(node, 1, out, out_len);
}
static swimtab_written write_compound(swimtab_node *node, uint8_t *out, size_t out_len) {
    struct bytes packets = hex(SUSPECT_A_5 CONFIRM_A_0);
    const size_t lens[2] = {29, 29};
    (void)node;
    swimtab_written written = swimtab_compound(packets.at, packets.len, lens, 2, out, out_len);
    free(packets.at);
    return written;
}

static const uint8_t db_3_addr[16] = {0xfd, 0, 0, 0x10, [15] = 0x13}, db_3_vsn[6] = {1, 5, 2, 2, 5, 5};
static const char db_3_meta[] = "\xff\x82\xa4role\xa2" "db\xa4rack\xa2r3";

static swimtab_written write_alive_of(swimtab_node *node, uint8_t *out, size_t out_len) {
    (void)node;
    return alive_with("db-3", 4, db_3_addr, 16, 7946, db_3_meta, 18, db_3_vsn, 6, 1, out, out_len);
}
static swimtab_written write_plain_alive_of(swimtab_node *node, uint8_t *out, size_t out_len) {
    (void)node;
    return alive_with("a", 1, local_addr, 4, 7947, NULL, 0, NULL, 0, 4, out, out_len);
}

/* The first packet is from a running cluster: tests/c/sealing.c has it as it was sent. */
static void anybodys_alive_is_written(void) {
    swimtab_node node = opened("a", 7946, 0);
    writes(&node, write_alive_of,
           "0486a441646472b0fd000010000000000000000000000013ab496e6361726e6174696f6e01a44d657461b2ff82a4"
           "726f6c65a26462a47261636ba27233a44e6f6465a464622d33a4506f7274cd1f0aa356736ea6010502020505");
    writes(&node, write_plain_alive_of, ALIVE_A_4);
    WANT(lists(&node, LIST_A_0));
    WANT(swimtab_close(&node) == 0);
}

/* The status names the first part that is invalid, and nothing is written. */
static void an_alive_of_invalid_parts_is_refused(void) {
    static const struct {
        size_t name_len, addr_len, meta_len, vsn_len;
        uint32_t status;
    } cases[] = {
        {0, 0, 513, 1, SWIMTAB_NAME_EMPTY},    {1025, 0, 513, 1, SWIMTAB_NAME_TOO_LONG},
        {1, 0, 513, 1, SWIMTAB_BAD_ADDRESS},   {1, 3, 0, 0, SWIMTAB_BAD_ADDRESS},
        {1, 15, 0, 0, SWIMTAB_BAD_ADDRESS},    {1, 17, 0, 0, SWIMTAB_BAD_ADDRESS},
        {1, 4, 513, 1, SWIMTAB_META_TOO_LONG}, {1, 4, 512, 1, SWIMTAB_BAD_VERSIONS},
        {1, 16, 0, 5, SWIMTAB_BAD_VERSIONS},   {1, 16, 0, 7, SWIMTAB_BAD_VERSIONS},
        {1024, 16, 512, 6, SWIMTAB_DONE},      {1, 4, 0, 0, SWIMTAB_DONE},
    };
    for (size_t i = 0; i < sizeof cases / sizeof *cases; i++) {
        struct bytes name = bytes_of_size(cases[i].name_len, 'n'), addr = bytes_of_size(cases[i].addr_len, 1),
                     meta = bytes_of_size(cases[i].meta_len, 2), vsn = bytes_of_size(cases[i].vsn_len, 3),
                     out = bytes_of_size(2100, 7);
        swimtab_written written = alive_with(name.at, name.len, addr.at, addr.len, 1, meta.at, meta.len,
                                             vsn.at, vsn.len, UINT32_MAX, out.at, out.len);
        WANT(written.status == cases[i].status);
        WANT(written.status == SWIMTAB_DONE || (written.len == 0 && out.at[0] == 7));
        swimtab_node node = opened("a", 7946, 0);
        if (written.status == SWIMTAB_DONE) {
            WANT(swimtab_take(&node, out.at, written.len).news);
            WANT(swimtab_find(&node, name.at, name.len, NULL) == SWIMTAB_DONE);
        }
        WANT(swimtab_close(&node) == 0);
        free(name.at), free(addr.at), free(meta.at), free(vsn.at), free(out.at);
    }
    uint8_t out[8];
    WANT(alive_with(NULL, 1, local_addr, 4, 1, NULL, 0, NULL, 0, 0, out, 8).status == SWIMTAB_NAME_EMPTY);
    WANT(alive_with("a", 1, NULL, 4, 1, NULL, 0, NULL, 0, 0, out, 8).status == SWIMTAB_BAD_ADDRESS);
}

static void packets_are_written_where_they_fit(void) {
    swimtab_node node = opened("a", 7946, 0);
    writes(&node, write_alive,
           "0486a441646472a47f000001ab496e6361726e6174696f6ecd012ca44d657461a0a44e6f6465a161a4506f7274cd"
           "1f0aa356736ea0");
    writes(&node, write_suspect, "0383a446726f6da161ab496e6361726e6174696f6ece00011170a44e6f6465a162");
    writes(&node, write_confirm, "0583a446726f6da161ab496e6361726e6174696f6eccc8a44e6f6465a162");
    writes(&node, write_leave, "0583a446726f6da161ab496e6361726e6174696f6e01a44e6f6465a161");
    writes(&node, write_compound, "0702001d001d" SUSPECT_A_5 CONFIRM_A_0);
    WANT(lists(&node, LIST_A_0));
    WANT(swimtab_close(&node) == 0);
}

/* What a says of itself and of b at the first incarnations, and the same written by anybody. */
#define ALIVE_A_1 \
    "0486a441646472a47f000001ab496e6361726e6174696f6e01a44d657461a0a44e6f6465a161a4506f7274cd1f0a" \
    "a356736ea0"
#define SUSPECT_B_0 "0383a446726f6da161ab496e6361726e6174696f6e00a44e6f6465a162"
#define CONFIRM_B_0 "0583a446726f6da161ab496e6361726e6174696f6e00a44e6f6465a162"

static swimtab_written write_first_alive(swimtab_node *node, uint8_t *out, size_t out_len) {
    return swimtab_alive(node, 1, out, out_len);
}
static swimtab_written write_first_alive_of(swimtab_node *node, uint8_t *out, size_t out_len) {
    (void)node;
    return alive_with("a", 1, local_addr, 4, 7946, NULL, 0, NULL, 0, 1, out, out_len);
}
static swimtab_written write_first_suspect(swimtab_node *node, uint8_t *out, size_t out_len) {
    return swimtab_suspect(node, "b", 1, 0, out, out_len);
}
static swimtab_written write_first_suspect_of(swimtab_node *node, uint8_t *out, size_t out_len) {
    (void)node;
    return swimtab_suspect_of("a", 1, "b", 1, 0, out, out_len);
}
static swimtab_written write_first_confirm(swimtab_node *node, uint8_t *out, size_t out_len) {
    return swimtab_confirm(node, "b", 1, 0, out, out_len);
}
static swimtab_written write_first_dead_of(swimtab_node *node, uint8_t *out, size_t out_len) {
    (void)node;
    return swimtab_dead_of("a", 1, "b", 1, 0, out, out_len);
}

static void a_member_and_anybody_write_the_same(void) {
    swimtab_node node = opened("a", 7946, 0);
    writes(&node, write_first_alive, ALIVE_A_1);
    writes(&node, write_first_alive_of, ALIVE_A_1);
    writes(&node, write_first_suspect, SUSPECT_B_0);
    writes(&node, write_first_suspect_of, SUSPECT_B_0);
    writes(&node, write_first_confirm, CONFIRM_B_0);
    writes(&node, write_first_dead_of, CONFIRM_B_0);
    WANT(lists(&node, LIST_A_0));
    WANT(swimtab_close(&node) == 0);
}

static void refutations_come_where_they_are_due(void) {
    swimtab_node node = opened("a", 7946, 0);
    swimtab_refuted refuted = swimtab_refute(&node);
    WANT(refuted.status == 0 && !refuted.due && refuted.inc == 0);
    /* b suspects it at the incarnation at which it is alive */
    WANT(take_hex(&node, "0383a446726f6da162ab496e6361726e6174696f6e00a44e6f6465a161") == 0);
    WANT(lists(&node, "a suspect 0 0/7f000001/7946//\n"));
    refuted = swimtab_refute(&node);
    WANT(refuted.status == 0 && refuted.due && refuted.inc == 1);
    WANT(take_hex(&node, "09") == SWIMTAB_WRONG_TYPE && lists(&node, "a alive 1 1/7f000001/7946//\n"));
    WANT(take_hex(&node, SUSPECT_A_5) == 0);
    refuted = swimtab_refute(&node);
    WANT(refuted.status == 0 && refuted.due && refuted.inc == 6);
    WANT(lists(&node, "a alive 6 6/7f000001/7946//\n"));
    refuted = swimtab_refute(&node);
    WANT(refuted.status == 0 && !refuted.due);
    /* an Alive with another port */
    WANT(take_hex(&node, "0484a441646472a47f000001ab496e6361726e6174696f6e09a44e6f6465a161a4506f727401") == 0);
    refuted = swimtab_refute(&node);
    WANT(refuted.status == 0 && refuted.due && refuted.inc == 10);
    WANT(take_hex(&node, "0382ab496e6361726e6174696f6eceffffffffa44e6f6465a161") == 0);
    refuted = swimtab_refute(&node);
    WANT(refuted.status == SWIMTAB_EXHAUSTED && !refuted.due && refuted.inc == 0);
    WANT(lists(&node, "a suspect 4294967295 10/7f000001/7946//\n"));
    WANT(take_hex(&node, CONFIRM_A_0) == 0);
    refuted = swimtab_refute(&node);
    WANT(refuted.status == SWIMTAB_GONE && !refuted.due && refuted.inc == 0);
    WANT(take_hex(&node, LEAVE_A_0) == 0);
    WANT(swimtab_refute(&node).status == SWIMTAB_GONE);
    WANT(lists(&node, "a leave 0 10/7f000001/7946//\n"));
    WANT(swimtab_close(&node) == 0);
}

static void what_a_member_may_not_say_is_refused(void) {
    swimtab_node node = opened("a", 7946, 0);
    struct bytes name = bytes_of_size(1025, 'n'), out = bytes_of_size(2200, 7);
    WANT(swimtab_suspect(&node, "", 0, 1, out.at, out.len).status == SWIMTAB_NAME_EMPTY);
    WANT(swimtab_suspect(&node, NULL, 3, 1, out.at, out.len).status == SWIMTAB_NAME_EMPTY);
    WANT(swimtab_suspect(&node, name.at, 1025, 1, out.at, out.len).status == SWIMTAB_NAME_TOO_LONG);
    WANT(swimtab_confirm(&node, "", 0, 1, out.at, out.len).status == SWIMTAB_NAME_EMPTY);
    WANT(swimtab_confirm(&node, name.at, 1025, 1, out.at, out.len).status == SWIMTAB_NAME_TOO_LONG);
    WANT(swimtab_confirm(&node, "a", 1, 1, out.at, out.len).status == SWIMTAB_OWN_NAME);
    WANT(swimtab_confirm(&node, "a", 1, 1, NULL, 0).len == 0);
    WANT(out.at[0] == 7 && memcmp(out.at, out.at + 1, out.len - 1) == 0);
    swimtab_written written = swimtab_suspect(&node, name.at, 1024, 1, out.at, out.len);
    WANT(written.status == 0 && swimtab_take(&node, out.at, written.len).status == 0);
    WANT(swimtab_find(&node, name.at, 1024, NULL) == 0);
    WANT(swimtab_close(&node) == 0);
    WANT(open_with(&node, name.at, 1024, local_addr, 4, 1, NULL, 0, NULL, 0, 0) == 0);
    written = swimtab_suspect(&node, name.at, 1024, UINT32_MAX, out.at, out.len);
    WANT(written.status == 0 && written.len == 2083);
    WANT(swimtab_close(&node) == 0);
    node = opened("a", 7946, 0);
    /* a member may suspect itself, though none does */
    written = swimtab_suspect(&node, "a", 1, 1, out.at, out.len);
    WANT(written.status == 0 && swimtab_take(&node, out.at, written.len).status == 0);
    WANT(swimtab_refute(&node).due);
    written = swimtab_leave(&node, 2, out.at, out.len);
    WANT(written.status == 0 && swimtab_take(&node, out.at, written.len).status == 0);
    WANT(swimtab_refute(&node).status == SWIMTAB_GONE);
    free(name.at), free(out.at);
    WANT(swimtab_close(&node) == 0);
}

static void packets_become_one_compound_packet(void) {
    struct bytes packets = hex(SUSPECT_A_5 ALIVE_A_4);
    const size_t alive = packets.len - 29;
    const size_t lens[2] = {29, alive}, long_lens[2] = {29, alive + 1}, short_lens[2] = {29, alive - 1},
                 one[1] = {29}, huge[2] = {SIZE_MAX, SIZE_MAX};
    uint8_t out[256];
    memset(out, 7, sizeof out);
    WANT(swimtab_compound(packets.at, packets.len, long_lens, 2, out, sizeof out).status == SWIMTAB_ENDED);
    WANT(swimtab_compound(packets.at, packets.len, huge, 2, out, sizeof out).status == SWIMTAB_ENDED);
    WANT(swimtab_compound(packets.at, packets.len, short_lens, 2, out, sizeof out).status == SWIMTAB_ENDED);
    WANT(swimtab_compound(packets.at, packets.len, one, 1, out, sizeof out).status == SWIMTAB_TRAILING);
    WANT(swimtab_compound(packets.at, packets.len, NULL, 0, out, sizeof out).status == SWIMTAB_TRAILING);
    WANT(swimtab_compound(packets.at, packets.len, NULL, 2, out, sizeof out).status == SWIMTAB_TRAILING);
    WANT(swimtab_compound(NULL, 0, one, 1, out, sizeof out).status == SWIMTAB_ENDED);
    WANT(out[0] == 7 && memcmp(out, out + 1, sizeof out - 1) == 0);
    swimtab_written written = swimtab_compound(packets.at, packets.len, lens, 2, out, sizeof out);
    WANT(written.status == 0 && written.len == 6 + packets.len);
    swimtab_node node = opened("b", 7946, 0);
    WANT(swimtab_take(&node, out, written.len).status == 0);
    WANT(lists(&node, "a suspect 5 4/7f000001/7947//\nb alive 0 0/7f000001/7946//\n"));
    const size_t whole[1] = {written.len};
    uint8_t again[256];
    WANT(swimtab_compound(out, written.len, whole, 1, again, sizeof again).status == SWIMTAB_WRONG_TYPE);
    written = swimtab_compound(NULL, 0, NULL, 0, out, sizeof out);
    WANT(written.status == 0 && is_hex(out, written.len, "0700"));
    WANT(swimtab_take(&node, out, written.len).status == 0 && swimtab_count(&node) == 2);
    free(packets.at);
    WANT(swimtab_close(&node) == 0);
}

static void a_compound_packet_has_255_packets_at_most(void) {
    struct bytes one = hex(SUSPECT_A_5), packets = bytes_of_size(256 * 29, 0), out = bytes_of_size(9000, 7);
    size_t lens[256];
    for (size_t i = 0; i < 256; i++) {
        memcpy(packets.at + 29 * i, one.at, 29);
        lens[i] = 29;
    }
    WANT(swimtab_compound(packets.at, packets.len, lens, 256, out.at, out.len).status == SWIMTAB_TOO_MANY_PACKETS);
    WANT(out.at[0] == 7);
    swimtab_written written = swimtab_compound(packets.at, 255 * 29, lens, 255, out.at, out.len);
    WANT(written.status == 0 && written.len == 2 + 255 * 31 && out.at[1] == 255);
    swimtab_node node = opened("b", 7946, 0);
    WANT(swimtab_take(&node, out.at, written.len).status == 0 && swimtab_find(&node, "a", 1, NULL) == 0);
    WANT(swimtab_close(&node) == 0);
    free(one.at), free(packets.at), free(out.at);
}

int main(void) {
    static const struct test tests[] = {
        {"packets are taken in", packets_are_taken_in},
        {"packets tell whether they have news", packets_tell_whether_they_have_news},
        {"what is no packet is refused", what_is_no_packet_is_refused},
        {"anybody's Alive is written", anybodys_alive_is_written},
        {"an Alive of invalid parts is refused", an_alive_of_invalid_parts_is_refused},
        {"packets are written where they fit", packets_are_written_where_they_fit},
        {"a member and anybody write the same", a_member_and_anybody_write_the_same},
        {"refutations come where they are due", refutations_come_where_they_are_due},
        {"what a member may not say is refused", what_a_member_may_not_say_is_refused},
        {"packets become one compound packet", packets_become_one_compound_packet},
        {"a compound packet has 255 packets at most", a_compound_packet_has_255_packets_at_most},
    };
    return run_tests(tests, sizeof tests / sizeof *tests);
}
