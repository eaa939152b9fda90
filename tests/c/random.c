/* Random claims, in packets, compound packets and streams, taken in by a node that notes changed names:
 *
 *     random SEED FOLDER
 *
 * After each step it compares the news, and the names that swimtab_next_change returns, with how the table changed.
 * To FOLDER it writes files to compare with what the program swimtab makes from the same claims: claims.hex, with
 * each packet and compound packet as a line, and each record of a stream as the packet with the same claim;
 * packets.dump, the table before any stream; 0.bin and so on, the streams; all.list and all.dump. */
#include "check.h"

enum { PACKETS = 300, STREAMS = 3, MOST_PARTS = 6, MOST_RECORDS = 12, NAMES = 12, ROOM = 1 << 16 };

static uint64_t state;
static const char *folder;
static FILE *lines;

/* A random number below this one, by xorshift. */
static unsigned any(unsigned count) {
    state ^= state << 13;
    state ^= state >> 7;
    state ^= state << 17;
    return (unsigned)(state >> 33) % count;
}

/* ---- bytes, in one of the spellings that are read */

struct text {
    uint8_t at[ROOM];
    size_t len;
};

static void put(struct text *to, const void *bytes, size_t len) {
    if (to->len + len > ROOM) abort();
    memcpy(to->at + to->len, bytes, len);
    to->len += len;
}

static void put_byte(struct text *to, unsigned byte) {
    const uint8_t one = (uint8_t)byte;
    put(to, &one, 1);
}

static void put_number(struct text *to, uint32_t number) {
    static const unsigned heads[] = {0xcc, 0xcd, 0xce, 0xcf};
    unsigned least = number < 256 ? 0 : number < 65536 ? 1 : 2, width = least + any(4 - least);
    if (number < 128 && any(2)) {
        put_byte(to, number);
        return;
    }
    put_byte(to, heads[width]);
    for (unsigned left = 8u << width; left > 0; left -= 8) put_byte(to, left > 32 ? 0 : number >> (left - 8) & 255);
}

static void put_bytes(struct text *to, const void *bytes, size_t len) {
    if (len < 32 && any(2))
        put_byte(to, 0xa0 + (unsigned)len);
    else if (len < 256 && any(2))
        put_byte(to, any(2) ? 0xc4 : 0xd9), put_byte(to, (unsigned)len);
    else
        put_byte(to, any(2) ? 0xc5 : 0xda), put_byte(to, (unsigned)len >> 8), put_byte(to, len & 255);
    put(to, bytes, len);
}

static void put_key(struct text *to, const char *key) {
    put_bytes(to, key, strlen(key));
}

/* ---- claims: few names, incarnations and details, so that they meet */

struct claim {
    unsigned kind; /* the state of a record */
    uint32_t inc;
    unsigned name, details;
};

static size_t name_of(unsigned number, uint8_t *name) {
    static const char *const names[] = {"a", "b", "a b", "%41", "\xff\xfe", "z\n"};
    if (number < 6) {
        memcpy(name, names[number], strlen(names[number]));
        return strlen(names[number]);
    }
    /* long names that differ in their last byte, and one that begins all of them */
    size_t len = number == 6 ? 200 : 201;
    memset(name, 'n', len);
    name[200] = (uint8_t)number;
    return len;
}

static struct claim any_claim(void) {
    static const uint32_t incs[] = {0, 1, 2, 3, 127, 128, 255, 256, 65536, UINT32_MAX - 1, UINT32_MAX};
    /* a death is final, and therefore rare */
    unsigned dice = any(64);
    unsigned kind = dice == 0 ? SWIMTAB_CONFIRM + any(2) : dice < 36 ? SWIMTAB_ALIVE : SWIMTAB_SUSPECT;
    struct claim made = {kind, incs[any(8) ? any(5) : any(11)], any(NAMES), any(8)};
    return made;
}

static void put_address(struct text *to, unsigned details) {
    static const uint8_t addr[16] = {10, 0, 0, 1, 9};
    put_bytes(to, addr, details & 1 ? 4 : 16);
}

/* A value of an Alive, in a packet or a record. */
static void put_alive_value(struct text *to, const struct claim *claim, unsigned key, const char *name_key) {
    static const uint8_t vsn[6] = {1, 5, 2, 0, 0, 0}, meta[300] = {7, 8};
    uint8_t name[256];
    switch (key) {
    case 0: put_key(to, "Addr"), put_address(to, claim->details); break;
    case 1: put_key(to, "Incarnation"), put_number(to, claim->inc); break;
    case 2: put_key(to, "Meta"), put_bytes(to, meta, claim->details & 2 ? sizeof meta : 0); break;
    case 3: put_key(to, name_key), put_bytes(to, name, name_of(claim->name, name)); break;
    case 4: put_key(to, "Port"), put_number(to, claim->details & 4 ? 7946 : 80); break;
    default: put_key(to, "Vsn"), put_bytes(to, vsn, claim->details & 2 ? 6 : 0); break;
    }
}

static void put_word_value(struct text *to, const struct claim *claim, unsigned key) {
    uint8_t name[256];
    size_t len = name_of(claim->name, name);
    switch (key) {
    case 0:
        put_key(to, "From");
        if (claim->kind == SWIMTAB_LEAVE)
            put_bytes(to, name, len);
        else
            put_bytes(to, "x", any(2));
        break;
    case 1: put_key(to, "Incarnation"), put_number(to, claim->inc); break;
    default: put_key(to, "Node"), put_bytes(to, name, len); break;
    }
}

/* The packet of a claim, with its keys in an order that begins anywhere. */
static void put_packet(struct text *to, const struct claim *claim) {
    static const unsigned types[] = {4, 3, 5, 5};
    unsigned keys = claim->kind == SWIMTAB_ALIVE ? 6 : 3, first = any(keys);
    put_byte(to, types[claim->kind]);
    put_byte(to, 0x80 + keys);
    for (unsigned i = 0; i < keys; i++) {
        if (claim->kind == SWIMTAB_ALIVE)
            put_alive_value(to, claim, (first + i) % keys, "Node");
        else
            put_word_value(to, claim, (first + i) % keys);
    }
}

/* The record of a claim. The details are read only for the state alive. */
static void put_record(struct text *to, const struct claim *claim) {
    unsigned first = any(7);
    put_byte(to, 0x87);
    for (unsigned i = 0; i < 7; i++) {
        unsigned key = (first + i) % 7;
        if (key < 6)
            put_alive_value(to, claim, key, "Name");
        else
            put_key(to, "State"), put_number(to, claim->kind);
    }
}

/* ---- what is kept */

static void keep(const char *name, const void *at, size_t len) {
    char path[1024];
    snprintf(path, sizeof path, "%s/%s", folder, name);
    FILE *file = fopen(path, "wb");
    if (!file || fwrite(at, 1, len, file) != len || fclose(file)) {
        perror(path);
        exit(1);
    }
}

static void keep_line(const struct text *packet) {
    for (size_t i = 0; i < packet->len; i++) fprintf(lines, "%02x", packet->at[i]);
    fprintf(lines, "\n");
}

static void keep_dump(const swimtab_node *node, const char *name) {
    swimtab_buffer buffer = SWIMTAB_BUFFER_INIT;
    WANT(swimtab_offer_new(node, false, SWIMTAB_CANONICAL, NULL, 0, &buffer) == SWIMTAB_DONE);
    keep(name, buffer.at, buffer.len);
    swimtab_free(&buffer);
}

/* ---- what changed */

/* The listing, a line for each member. */
static char *before, *after;

static char *next_line(char **at) {
    char *line = *at, *end = strchr(line, '\n');
    if (!end) return NULL;
    *end = 0;
    *at = end + 1;
    return line;
}

/* Whether the listings' lines of this length begin with the same name. */
static bool same_name(const char *one, const char *other) {
    size_t len = strcspn(one, " ");
    return len == strcspn(other, " ") && memcmp(one, other, len) == 0;
}

static bool tells_line(swimtab_node *node, const char *line) {
    static swimtab_member_data member;
    if (swimtab_next_change(node, &member) != SWIMTAB_DONE) return false;
    char name[3 * 256 + 1];
    size_t len = 0;
    for (size_t i = 0; i < member.name_len; i++) {
        unsigned c = member.name[i];
        len += (size_t)snprintf(name + len, 4, c > 0x20 && c < 0x7f && c != '%' ? "%c" : "%%%02X", c);
    }
    return same_name(name, line);
}

/* The names returned are those whose lines differ, in order; a table does not shrink. */
static void compare(swimtab_node *node, bool news) {
    after = listing(node);
    char *kept = listing(node), *old = before, *new = after, *line;
    char *old_line = next_line(&old);
    bool changed = false;
    while ((line = next_line(&new))) {
        bool was_there = old_line && same_name(old_line, line);
        if (!was_there || strcmp(old_line, line) != 0) {
            changed = true;
            WANT(tells_line(node, line));
        }
        if (was_there) old_line = next_line(&old);
    }
    WANT(!old_line && changed == news && swimtab_next_change(node, NULL) == SWIMTAB_NO_MEMBER);
    free(before), free(after);
    before = kept;
}

/* ---- the steps */

static void take_packet(swimtab_node *node) {
    static struct text packet;
    struct claim claim = any_claim();
    packet.len = 0;
    put_packet(&packet, &claim);
    keep_line(&packet);
    swimtab_taken taken = swimtab_take(node, packet.at, packet.len);
    WANT(taken.status == SWIMTAB_DONE);
    compare(node, taken.news);
}

static void take_compound(swimtab_node *node) {
    static struct text parts, compound;
    size_t lens[MOST_PARTS], count = any(MOST_PARTS + 1);
    parts.len = compound.len = 0;
    for (size_t i = 0; i < count; i++) {
        size_t start = parts.len;
        struct claim claim = any_claim();
        if (any(8))
            put_packet(&parts, &claim);
        else
            put(&parts, "\x02\x80", 2); /* an ack, which is skipped */
        lens[i] = parts.len - start;
    }
    put_byte(&compound, 7);
    put_byte(&compound, (unsigned)count);
    for (size_t i = 0; i < count; i++) put_byte(&compound, (unsigned)lens[i] >> 8), put_byte(&compound, lens[i] & 255);
    put(&compound, parts.at, parts.len);
    keep_line(&compound);
    swimtab_taken taken = swimtab_take(node, compound.at, compound.len);
    WANT(taken.status == SWIMTAB_DONE);
    compare(node, taken.news);
}

/* A stream that comes in pieces, and is taken in by one of the two calls. */
static void take_stream(swimtab_node *node, unsigned number) {
    static struct text stream, packet;
    unsigned count = any(MOST_RECORDS + 1), user_len = any(4);
    stream.len = 0;
    put(&stream, "\x06\x83", 2);
    put_key(&stream, "UserStateLen"), put_number(&stream, user_len);
    put_key(&stream, "Nodes"), put_number(&stream, count);
    put_key(&stream, "Join"), put_byte(&stream, 0xc2 + any(2));
    for (unsigned i = 0; i < count; i++) {
        struct claim claim = any_claim();
        put_record(&stream, &claim);
        packet.len = 0;
        put_packet(&packet, &claim);
        keep_line(&packet);
    }
    put(&stream, "user", user_len);
    swimtab_progress progress = SWIMTAB_PROGRESS_INIT;
    for (size_t len = 0; len < stream.len; len += 1 + any(40))
        WANT(swimtab_whole(&progress, stream.at, len) == SWIMTAB_ENDED);
    WANT(swimtab_whole(&progress, stream.at, stream.len) == SWIMTAB_DONE);
    WANT(progress.at + progress.user_len == stream.len);
    swimtab_buffer reply = SWIMTAB_BUFFER_INIT;
    swimtab_exchanged made = number % 2 ? swimtab_finish(node, stream.at, stream.len)
                                        : swimtab_answer_new(node, stream.at, stream.len, number / 2 % 2, NULL, 0, &reply);
    WANT(made.status == SWIMTAB_DONE && made.used == stream.len && made.len == reply.len);
    swimtab_free(&reply);
    compare(node, made.news);
    char name[32];
    snprintf(name, sizeof name, "%u.bin", number);
    keep(name, stream.at, stream.len);
}

/* The member's own Alive is a claim too. */
static swimtab_node begun(void) {
    const uint8_t addr[4] = {127, 0, 0, 1};
    static struct text own;
    swimtab_node node = SWIMTAB_NODE_INIT;
    WANT(open_with(&node, "self", 4, addr, 4, 7946, NULL, 0, NULL, 0, 3) == SWIMTAB_DONE);
    WANT(swimtab_watch(&node, true) == SWIMTAB_DONE);
    own.len = swimtab_alive(&node, 3, own.at, ROOM).len;
    keep_line(&own);
    before = listing(&node);
    return node;
}

int main(int argc, char **argv) {
    char path[1024];
    if (argc != 3) return 2;
    folder = argv[2];
    state = strtoull(argv[1], NULL, 10) * 0x9e3779b97f4a7c15u + 1;
    snprintf(path, sizeof path, "%s/claims.hex", folder);
    lines = fopen(path, "w");
    if (!lines) return 4;
    swimtab_node node = begun();
    for (unsigned i = 0; i < PACKETS; i++) any(3) ? take_packet(&node) : take_compound(&node);
    keep_dump(&node, "packets.dump");
    for (unsigned i = 0; i < STREAMS; i++) take_stream(&node, i);
    keep_dump(&node, "all.dump");
    keep("all.list", before, strlen(before));
    free(before);
    WANT(fclose(lines) == 0 && swimtab_close(&node) == SWIMTAB_DONE);
    return test_failures != 0;
}
