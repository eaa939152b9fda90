/* Push/pull streams: taken in, refused, offered and answered. The expected bytes and faults are those of
 * docs/messages.md. */
#include "streams.h"

static void what_is_no_stream_is_refused(void) {
    swimtab_node node = opened("a", 7946, 0);
    for (size_t i = 0; i < sizeof no_streams / sizeof *no_streams; i++) {
        struct bytes stream = hex(no_streams[i].bytes);
        uint8_t out[256];
        memset(out, 7, sizeof out);
        swimtab_exchanged finished = swimtab_finish(&node, stream.at, stream.len);
        swimtab_exchanged answered = swimtab_answer(&node, stream.at, stream.len, SWIMTAB_CANONICAL, NULL, 0, out, sizeof out);
        if (finished.status != no_streams[i].status)
            printf("    %s: %s\n", no_streams[i].bytes, swimtab_fault_name(finished.status));
        WANT(finished.status == no_streams[i].status && answered.status == no_streams[i].status);
        WANT(!finished.join && !finished.news && finished.used == 0 && finished.len == 0);
        WANT(!answered.join && !answered.news && answered.used == 0 && answered.len == 0);
        WANT(out[0] == 7 && memcmp(out, out + 1, sizeof out - 1) == 0);
        WANT(lists(&node, LIST_A_0));
        free(stream.at);
    }
    WANT(swimtab_finish(&node, NULL, 0).status == SWIMTAB_ENDED);
    WANT(swimtab_answer(&node, NULL, 0, SWIMTAB_CANONICAL, NULL, 0, NULL, 0).status == SWIMTAB_ENDED);
    WANT(swimtab_close(&node) == 0);
}

static void forms_that_do_not_exist_are_refused(void) {
    static const uint32_t forms[] = {2, 3, 256, UINT32_MAX};
    swimtab_node node = opened("a", 7946, 0);
    struct bytes stream = hex(DUMP_B_1);
    uint8_t out[256];
    memset(out, 7, sizeof out);
    for (size_t i = 0; i < sizeof forms / sizeof *forms; i++) {
        swimtab_written offered = swimtab_offer(&node, true, forms[i], NULL, 0, out, sizeof out);
        WANT(offered.status == SWIMTAB_BAD_FORM && offered.len == 0);
        swimtab_exchanged answered = swimtab_answer(&node, stream.at, stream.len, forms[i], NULL, 0, out, sizeof out);
        WANT(answered.status == SWIMTAB_BAD_FORM && answered.used == 0 && answered.len == 0 && !answered.news);
    }
    WANT(out[0] == 7 && memcmp(out, out + 1, sizeof out - 1) == 0 && lists(&node, LIST_A_0));
    free(stream.at);
    WANT(swimtab_close(&node) == 0);
}

static swimtab_written write_offer(swimtab_node *node, uint8_t *out, size_t out_len) {
    return swimtab_offer(node, true, SWIMTAB_CANONICAL, NULL, 0, out, out_len);
}

static void dumps_are_canonical(void) {
    swimtab_node node = opened("a", 7946, 0);
    uint8_t out[256];
    swimtab_written written = swimtab_dump(&node, out, sizeof out);
    WANT(written.status == 0 && is_hex(out, written.len, DUMP_A_0));
    WANT(swimtab_close(&node) == 0);
    node = opened("a", 7947, 4);
    WANT(take_hex(&node, SUSPECT_A_5) == 0);
    written = swimtab_dump(&node, out, sizeof out);
    WANT(written.status == 0 && is_hex(out, written.len, DUMP_A_4_5));
    written = swimtab_offer(&node, true, SWIMTAB_CANONICAL, NULL, 0, out, sizeof out);
    WANT(written.status == 0 && out[7] == 0xc3);
    out[7] = 0xc2;
    WANT(is_hex(out, written.len, DUMP_A_4_5));
    WANT(swimtab_close(&node) == 0);
    node = opened("a", 7946, 0);
    char with_join[] = DUMP_A_0;
    with_join[15] = '3';
    writes(&node, write_offer, with_join);
    WANT(swimtab_close(&node) == 0);
}

static void an_offer_is_answered_with_the_table_of_before(void) {
    swimtab_node node = opened("a", 7946, 0);
    struct bytes stream = hex(DUMP_B_1 "ffff"), reply = bytes_of_size(86, 7);
    swimtab_exchanged made = swimtab_answer(&node, stream.at, stream.len, SWIMTAB_CANONICAL, NULL, 0, reply.at, 85);
    WANT(made.status == SWIMTAB_TOO_SMALL && made.len == 86 && made.used == stream.len - 2);
    WANT(!made.join && !made.news);
    WANT(reply.at[0] == 7 && memcmp(reply.at, reply.at + 1, 85) == 0 && lists(&node, LIST_A_0));
    made = swimtab_answer(&node, stream.at, stream.len, SWIMTAB_CANONICAL, NULL, 0, NULL, 0);
    WANT(made.status == SWIMTAB_TOO_SMALL && made.len == 86 && lists(&node, LIST_A_0));
    made = swimtab_answer(&node, stream.at, stream.len, SWIMTAB_CANONICAL, NULL, 0, reply.at, 86);
    WANT(made.status == SWIMTAB_DONE && made.len == 86 && made.used == stream.len - 2);
    WANT(!made.join && made.news);
    WANT(is_hex(reply.at, 86, DUMP_A_0));
    WANT(lists(&node, LIST_A_0 "b suspect 1 -\n"));
    free(stream.at), free(reply.at);
    char joins[] = DUMP_B_1;
    joins[15] = '3';
    stream = hex(joins);
    reply = bytes_of_size(200, 7);
    made = swimtab_answer(&node, stream.at, stream.len, SWIMTAB_CANONICAL, NULL, 0, reply.at, reply.len);
    WANT(made.status == SWIMTAB_DONE && made.join && made.used == stream.len && reply.at[7] == 0xc3);
    WANT(!made.news);
    free(stream.at), free(reply.at);
    WANT(swimtab_close(&node) == 0);
}

static void a_reply_is_taken_in(void) {
    swimtab_node node = opened("a", 7946, 0);
    struct bytes stream = hex(DUMP_A_4_5 "00");
    swimtab_exchanged made = swimtab_finish(&node, stream.at, stream.len);
    WANT(made.status == SWIMTAB_DONE && made.used == stream.len - 1 && !made.join && made.len == 0);
    WANT(made.news && lists(&node, "a suspect 5 4/7f000001/7947//\n"));
    made = swimtab_finish(&node, stream.at, stream.len);
    WANT(made.status == SWIMTAB_DONE && made.used == stream.len - 1 && !made.news);
    made = swimtab_finish(&node, stream.at, stream.len - 2);
    WANT(made.status == SWIMTAB_ENDED);
    free(stream.at);
    /* two bytes of user state, which are dropped */
    stream = hex("0682a44a6f696ec3ac5573657253746174654c656e020102");
    made = swimtab_finish(&node, stream.at, stream.len);
    WANT(made.status == SWIMTAB_DONE && made.used == stream.len && made.join && !made.news);
    free(stream.at);
    WANT(swimtab_close(&node) == 0);
}

/* Makes a stream of `count` members, all suspected; their names are numbers of six digits. */
static struct bytes suspects(uint32_t count) {
    static const char header[] = "\x06\x81\xa5Nodes\xce";
    struct bytes stream = bytes_of_size(sizeof header + 3 + (size_t)count * 20, 0);
    uint8_t *at = stream.at;
    memcpy(at, header, sizeof header - 1);
    at += sizeof header - 1;
    for (int shift = 24; shift >= 0; shift -= 8) *at++ = (uint8_t)(count >> shift);
    for (uint32_t i = 0; i < count; i++) {
        char record[32];
        snprintf(record, sizeof record, "\x82\xa4Name\xa6%06u\xa5State\x01", (unsigned)i);
        memcpy(at, record, 20);
        at += 20;
    }
    stream.len = (size_t)(at - stream.at);
    return stream;
}

static void a_table_of_too_many_records_has_no_dump(void) {
    swimtab_node node = opened("a", 7946, 0);
    struct bytes stream = suspects(131072), small = hex(DUMP_B_1);
    swimtab_exchanged made = swimtab_finish(&node, stream.at, stream.len);
    WANT(made.status == SWIMTAB_DONE && made.used == stream.len && swimtab_count(&node) == 131073);
    uint8_t out[16] = {7};
    WANT(swimtab_offer(&node, false, SWIMTAB_CANONICAL, NULL, 0, out, sizeof out).status == SWIMTAB_TOO_MANY_RECORDS);
    WANT(swimtab_dump(&node, out, sizeof out).len == 0);
    swimtab_buffer buffer = SWIMTAB_BUFFER_INIT;
    WANT(swimtab_offer_new(&node, false, SWIMTAB_CANONICAL, NULL, 0, &buffer) == SWIMTAB_TOO_MANY_RECORDS);
    made = swimtab_answer_new(&node, small.at, small.len, SWIMTAB_CANONICAL, NULL, 0, &buffer);
    WANT(made.status == SWIMTAB_TOO_MANY_RECORDS && !buffer.kept.held && buffer.at == NULL);
    /* nobody's versions are known, so the form for memberlist has no records */
    WANT(swimtab_offer_new(&node, false, SWIMTAB_MEMBERLIST, NULL, 0, &buffer) == SWIMTAB_DONE);
    WANT(is_hex(buffer.at, buffer.len, HEADER("c2", "00")) && swimtab_left_out(&node) == 131073);
    swimtab_free(&buffer);
    made = swimtab_answer(&node, small.at, small.len, SWIMTAB_CANONICAL, NULL, 0, out, sizeof out);
    WANT(made.status == SWIMTAB_TOO_MANY_RECORDS && out[0] == 7);
    WANT(swimtab_count(&node) == 131073 && swimtab_find(&node, "b", 1, NULL) == SWIMTAB_NO_MEMBER);
    WANT(swimtab_find(&node, "131071", 6, NULL) == 0);
    free(stream.at), free(small.at);
    WANT(swimtab_close(&node) == 0);
}

int main(void) {
    static const struct test tests[] = {
        {"what is no stream is refused", what_is_no_stream_is_refused},
        {"forms that do not exist are refused", forms_that_do_not_exist_are_refused},
        {"dumps are canonical", dumps_are_canonical},
        {"an offer is answered with the table of before", an_offer_is_answered_with_the_table_of_before},
        {"a reply is taken in", a_reply_is_taken_in},
        {"a table of too many records has no dump", a_table_of_too_many_records_has_no_dump},
    };
    return run_tests(tests, sizeof tests / sizeof *tests);
}
