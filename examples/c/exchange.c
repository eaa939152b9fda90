/* Two members of a cluster in one program: packets, an exchange of their tables, a refutation, a leave.
 * A real program sends the packets over UDP and the streams over TCP; here they are passed in memory.
 *
 *     cc exchange.c $(pkg-config --cflags --libs swimtab) */
#include <swimtab.h>

#include <stdio.h>
#include <stdlib.h>
#include <string.h>

/* Ends the program if a call was refused. */
static void check(swimtab_status status, const char *call) {
    if (status == SWIMTAB_DONE) return;
    fprintf(stderr, "%s: %s\n", call, swimtab_fault_text(status));
    exit(1);
}

/* Takes in a packet. */
static void hear(swimtab_node *node, const void *packet, size_t len) {
    check(swimtab_take(node, packet, len).status, "take");
}

static void show(const char *title, const swimtab_node *node) {
    swimtab_buffer text = SWIMTAB_BUFFER_INIT;
    check(swimtab_list_new(node, &text), "list");
    printf("%s, who knows of %zu:\n%.*s\n", title, swimtab_count(node), (int)text.len, (const char *)text.at);
    swimtab_free(&text);
}

/* A whole exchange, as when `joining` joins `other`. */
static void exchange(swimtab_node *joining, swimtab_node *other) {
    swimtab_buffer offer = SWIMTAB_BUFFER_INIT, reply = SWIMTAB_BUFFER_INIT;
    check(swimtab_offer_new(joining, true, SWIMTAB_CANONICAL, NULL, 0, &offer), "offer");
    /* .. over TCP, to the other member, which replies with what it knew before .. */
    check(swimtab_answer_new(other, offer.at, offer.len, SWIMTAB_CANONICAL, NULL, 0, &reply).status, "answer");
    /* .. and back */
    check(swimtab_finish(joining, reply.at, reply.len).status, "finish");
    printf("an exchange: %zu bytes offered, %zu in reply\n\n", offer.len, reply.len);
    swimtab_free(&offer);
    swimtab_free(&reply);
}

/* The details of a member at 10.0.0.`host`, as memberlist's members have them. */
static swimtab_status open_at(swimtab_node *node, const char *name, uint8_t host, const char *meta) {
    const uint8_t addr[4] = {10, 0, 0, host}, versions[6] = {1, 5, 2, 0, 0, 0};
    swimtab_details details = SWIMTAB_DETAILS_INIT;
    details.name = name, details.name_len = strlen(name);
    details.addr = addr, details.addr_len = sizeof addr;
    details.port = 7946;
    details.meta = meta, details.meta_len = strlen(meta);
    details.vsn = versions, details.vsn_len = sizeof versions;
    return swimtab_open(node, &details);
}

int main(void) {
    swimtab_node a = SWIMTAB_NODE_INIT, b = SWIMTAB_NODE_INIT;
    check(open_at(&a, "a", 1, "db"), "open");
    check(open_at(&b, "b", 2, "web"), "open");

    /* what a hears: c is alive at incarnation 3, and then d suspects it */
    const uint8_t c_is_alive[] = "\x04\x85\xa4""Addr\xa4\x0a\x00\x00\x03\xab""Incarnation\x03"
                                 "\xa4Node\xa1""c\xa4Port\xcd\x1f\x0a\xa3Vsn\xa6\x01\x05\x02\x00\x00\x00";
    const uint8_t c_is_suspect[] = "\x03\x83\xa4""From\xa1""d\xab""Incarnation\x03\xa4Node\xa1""c";
    hear(&a, c_is_alive, sizeof c_is_alive - 1);
    hear(&a, c_is_suspect, sizeof c_is_suspect - 1);
    show("a", &a);

    exchange(&b, &a);
    show("b", &b);
    swimtab_related related = swimtab_relate(&a, &b);
    check(related.status, "relate");
    printf("a and b know the same: %s\n\n", related.relation == SWIMTAB_EQUAL ? "yes" : "no");

    /* b got no ack from a and suspects it, and a hears of that */
    uint8_t packet[SWIMTAB_MAX_PACKET_LEN];
    swimtab_written suspicion = swimtab_suspect(&b, "a", 1, 1, packet, sizeof packet);
    check(suspicion.status, "suspect");
    hear(&b, packet, suspicion.len);
    hear(&a, packet, suspicion.len);
    show("b, who suspects a", &b);

    /* a refutes the suspicion, and says that it is alive */
    swimtab_refuted refuted = swimtab_refute(&a);
    check(refuted.status, "refute");
    if (refuted.due) {
        swimtab_written word = swimtab_alive(&a, refuted.inc, packet, sizeof packet);
        check(word.status, "alive");
        hear(&b, packet, word.len);
    }
    show("b, once a refuted it", &b);

    /* b leaves, and sends a one packet with its Leave and the death of c */
    uint8_t both[2 * SWIMTAB_MAX_PACKET_LEN], compound[2 * SWIMTAB_MAX_PACKET_LEN + 6];
    swimtab_written leave = swimtab_leave(&b, 1, both, sizeof both);
    check(leave.status, "leave");
    swimtab_written death = swimtab_confirm(&b, "c", 1, 3, both + leave.len, sizeof both - leave.len);
    check(death.status, "confirm");
    const size_t lens[2] = {leave.len, death.len};
    swimtab_written last = swimtab_compound(both, leave.len + death.len, lens, 2, compound, sizeof compound);
    check(last.status, "compound");
    hear(&a, compound, last.len);
    show("a, at the end", &a);

    swimtab_close(&a);
    swimtab_close(&b);
    return 0;
}
