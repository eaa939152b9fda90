/* An exchange between a member that heard packets and one that took in a dump, with every step written to a
 * file, so that tests/embedded can compare each with what the program swimtab makes from the same input:
 *
 *     worked PACKETS.hex DUMP FOLDER */
#include "check.h"

static const char *folder;

static void keep(const char *name, const uint8_t *at, size_t len) {
    char path[1024];
    snprintf(path, sizeof path, "%s/%s", folder, name);
    FILE *file = fopen(path, "wb");
    if (!file || fwrite(at, 1, len, file) != len || fclose(file)) {
        perror(path);
        exit(1);
    }
}

static struct bytes contents(const char *path) {
    struct bytes made = bytes_of_size(1 << 20, 0);
    FILE *file = fopen(path, "rb");
    if (!file) {
        perror(path);
        exit(1);
    }
    made.len = fread(made.at, 1, made.len, file);
    fclose(file);
    return made;
}

static struct bytes dump(swimtab_node *node) {
    struct bytes made = bytes_of_size(swimtab_dump(node, NULL, 0).len, 0);
    WANT(swimtab_dump(node, made.at, made.len).status == 0);
    return made;
}

/* Writes a node's dump and listing to files. */
static void keep_node(swimtab_node *node, const char *name) {
    char file[64];
    struct bytes bytes = dump(node);
    char *text = listing(node);
    snprintf(file, sizeof file, "%s.dump", name);
    keep(file, bytes.at, bytes.len);
    snprintf(file, sizeof file, "%s.list", name);
    keep(file, (uint8_t *)text, strlen(text));
    free(bytes.at), free(text);
}

/* Writes the packet of the member's own Alive to a file, in hexadecimal. */
static void keep_alive(swimtab_node *node, const char *name) {
    uint8_t packet[SWIMTAB_MAX_PACKET_LEN];
    char text[2 * SWIMTAB_MAX_PACKET_LEN + 2];
    swimtab_written written = swimtab_alive(node, 0, packet, sizeof packet);
    WANT(written.status == 0);
    for (size_t i = 0; i < written.len; i++) snprintf(text + 2 * i, 3, "%02x", packet[i]);
    snprintf(text + 2 * written.len, 2, "\n");
    keep(name, (uint8_t *)text, 2 * written.len + 1);
}

static void take_lines(swimtab_node *node, const char *path) {
    struct bytes text = contents(path);
    for (char *line = strtok((char *)text.at, "\n"); line; line = strtok(NULL, "\n"))
        WANT(take_hex(node, line) == 0);
    free(text.at);
}

static void exchange(swimtab_node *x, swimtab_node *y) {
    struct bytes offer = dump(x);
    struct bytes reply = bytes_of_size(swimtab_answer(y, offer.at, offer.len, SWIMTAB_CANONICAL, NULL, 0, NULL, 0).len, 0);
    swimtab_exchanged answered = swimtab_answer(y, offer.at, offer.len, SWIMTAB_CANONICAL, NULL, 0, reply.at, reply.len);
    WANT(answered.status == 0 && !answered.join && answered.used == offer.len && answered.len == reply.len);
    swimtab_exchanged finished = swimtab_finish(x, reply.at, reply.len);
    WANT(finished.status == 0 && !finished.join && finished.used == reply.len);
    keep("offer", offer.at, offer.len);
    keep("reply", reply.at, reply.len);
    free(offer.at), free(reply.at);
}

int main(int argc, char **argv) {
    static const char *const relations[] = {"equal\n", "behind\n", "ahead\n", "apart\n"};
    const uint8_t addr_x[4] = {127, 0, 9, 1}, addr_y[4] = {127, 0, 9, 2}, versions[6] = {1, 5, 2, 0, 0, 0};
    swimtab_node x = SWIMTAB_NODE_INIT, y = SWIMTAB_NODE_INIT;
    if (argc != 4) return 2;
    folder = argv[3];
    WANT(open_with(&x, "x", 1, addr_x, 4, 7946, "m", 1, versions, 6, 0) == 0);
    WANT(open_with(&y, "y", 1, addr_y, 4, 7946, NULL, 0, versions, 6, 0) == 0);
    keep_alive(&x, "x.alive");
    keep_node(&y, "y.alone");
    take_lines(&x, argv[1]);
    struct bytes stream = contents(argv[2]);
    swimtab_exchanged finished = swimtab_finish(&y, stream.at, stream.len);
    WANT(finished.status == 0 && finished.used == stream.len);
    free(stream.at);
    keep_node(&x, "x.before");
    keep_node(&y, "y.before");
    const char *relation = relations[swimtab_relate(&x, &y).relation];
    keep("relation", (const uint8_t *)relation, strlen(relation));
    exchange(&x, &y);
    WANT(swimtab_relate(&x, &y).relation == SWIMTAB_EQUAL);
    keep_node(&x, "x.after");
    keep_node(&y, "y.after");
    WANT(swimtab_close(&x) == 0 && swimtab_close(&y) == 0);
    return test_failures != 0;
}
