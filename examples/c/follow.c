/* Follows a cluster: reads packets in hexadecimal, one a line, from standard input as they come. After each it
 * prints a line for every member that changed, as `name state address:port`, with `back` at the end if the member
 * was declared dead or left, and has been heard of again:
 *
 *     tcpdump -l -nn -x -i eth0 udp port 7946 | gawk -f examples/payloads.awk | follow
 *
 * It reads packets as members send them, also with checksums and compressed, and those of a cluster with a key if
 * it is given a file of the keys: `follow KEYS`. The file has one key a line, in base64; it cannot be a JSON
 * keyring, as Serf and Consul keep it. Packets without claims, like pings, are skipped, and without a key also
 * encrypted ones. For any other packet that cannot be read, there is a line on standard error.
 *
 *     cc follow.c $(pkg-config --cflags --libs swimtab) -o follow */
#include <swimtab.h>

#include <stdio.h>
#include <stdlib.h>
#include <string.h>

enum { LONGEST_LINE = 2 * 65536 + 4, LONGEST_MESSAGE = 1 << 20 };

/* The name of the node that listens, which no member has. */
static const char listener[] = "(follow)";

/* Ends the program if a call that has to be done was refused. */
static void check(swimtab_status status, const char *what) {
    if (status == SWIMTAB_DONE) return;
    fprintf(stderr, "follow: %s: %s\n", what, swimtab_fault_text(status));
    exit(status == SWIMTAB_MEMORY ? 5 : 3);
}

/* Prints a member as a line, with the name as in a listing of swimtab. */
static void print_member(const swimtab_member_data *member) {
    static const char *const states[] = {"alive", "suspect", "confirm", "leave"};
    for (size_t i = 0; i < member->name_len; i++) {
        uint8_t c = member->name[i];
        printf(c > 0x20 && c < 0x7f && c != '%' ? "%c" : "%%%02X", c);
    }
    printf(" %s ", states[member->state]);
    if (!member->has_address) {
        puts("-");
        return;
    }
    const uint8_t *a = member->addr;
    if (member->addr_len == 4)
        printf("%u.%u.%u.%u", a[0], a[1], a[2], a[3]);
    else
        for (size_t i = 0; i < 16; i += 2) printf(i < 14 ? "%c%02x%02x" : "%c%02x%02x]", i ? ':' : '[', a[i], a[i + 1]);
    printf(":%u%s\n", member->port, member->came_back ? " back" : "");
}

static void print_changes(swimtab_node *node) {
    static swimtab_member_data member;
    while (swimtab_next_change(node, &member) == SWIMTAB_DONE) print_member(&member);
    fflush(stdout);
}

static int digit_of(char c) {
    if (c >= '0' && c <= '9') return c - '0';
    if (c >= 'a' && c <= 'f') return c - 'a' + 10;
    if (c >= 'A' && c <= 'F') return c - 'A' + 10;
    return -1;
}

/* Reads a line of hexadecimal. Returns the number of bytes, or -1 if it is not hexadecimal. */
static long read_hex(const char *line, uint8_t *bytes) {
    size_t len = strcspn(line, "\r\n");
    if (len % 2) return -1;
    for (size_t i = 0; i < len; i += 2) {
        int high = digit_of(line[i]), low = digit_of(line[i + 1]);
        if (high < 0 || low < 0) return -1;
        bytes[i / 2] = (uint8_t)(16 * high + low);
    }
    return (long)(len / 2);
}

/* Takes in the claims of a packet as a member sent it: those of each part that makes one. Returns the last status
 * that is not SWIMTAB_DONE, if there is one. */
static swimtab_status take(swimtab_node *node, const swimtab_keyring *keys, const uint8_t *packet, size_t len) {
    static uint8_t message[LONGEST_MESSAGE];
    swimtab_unwrapped unwrapped = swimtab_unwrap(keys, packet, len, message, sizeof message);
    swimtab_status status = unwrapped.status;
    for (size_t i = 0; status == SWIMTAB_DONE || i > 0; i++) {
        swimtab_part_place part = swimtab_part(message, unwrapped.len, i);
        if (part.status != SWIMTAB_DONE) break;
        if (part.kind < SWIMTAB_KIND_SUSPECT || part.kind > SWIMTAB_KIND_DEAD) continue;
        swimtab_taken taken = swimtab_take(node, message + part.at, part.len);
        if (taken.status != SWIMTAB_DONE) status = taken.status;
    }
    return status;
}

/* Takes in a line, or prints why it cannot, unless it is a packet without claims. */
static void take_line(swimtab_node *node, const swimtab_keyring *keys, const char *line, unsigned long number) {
    static uint8_t packet[LONGEST_LINE];
    long len = read_hex(line, packet);
    if (len == 0) return;
    if (len < 0) {
        fprintf(stderr, "follow: line %lu: This is not hexadecimal.\n", number);
        return;
    }
    swimtab_status status = take(node, keys, packet, (size_t)len);
    if (status == SWIMTAB_MEMORY) check(status, "take");
    if (status != SWIMTAB_DONE && status != SWIMTAB_WRONG_TYPE)
        fprintf(stderr, "follow: line %lu: %s\n", number, swimtab_fault_text(status));
}

/* Reads base64 with padding, four characters at a time. Returns the number of bytes, or 0 if it is not base64. */
static size_t read_base64(const char *text, size_t len, uint8_t *bytes) {
    static const char digits[] = "ABCDEFGHIJKLMNOPQRSTUVWXYZabcdefghijklmnopqrstuvwxyz0123456789+/";
    size_t padding = 0, made = 0;
    uint32_t bits = 0;
    if (len == 0 || len % 4) return 0;
    if (text[len - 1] == '=') padding = text[len - 2] == '=' ? 2 : 1;
    for (size_t i = 0; i < len; i++) {
        const char *digit = i < len - padding ? memchr(digits, text[i], 64) : digits;
        if (!digit) return 0;
        bits = bits << 6 | (uint32_t)(digit - digits);
        if (i % 4 != 3) continue;
        for (int shift = 16; shift >= 0; shift -= 8) bytes[made++] = (uint8_t)(bits >> shift);
        bits = 0;
    }
    return made - padding;
}

/* Adds the keys of a file, one a line. */
static void add_keys(swimtab_keyring *keys, const char *path) {
    char line[80];
    uint8_t key[60];
    FILE *file = fopen(path, "r");
    if (!file) {
        perror(path);
        exit(4);
    }
    for (unsigned long number = 1; fgets(line, sizeof line, file); number++) {
        size_t len = strcspn(line, "\r\n");
        swimtab_status status = len ? swimtab_keyring_add(keys, key, read_base64(line, len, key)) : SWIMTAB_DONE;
        if (status != SWIMTAB_DONE) fprintf(stderr, "follow: %s: line %lu\n", path, number);
        check(status, "keys");
    }
    fclose(file);
}

int main(int argc, char **argv) {
    static char line[LONGEST_LINE];
    const uint8_t nowhere[4] = {0, 0, 0, 0};
    swimtab_node node = SWIMTAB_NODE_INIT;
    swimtab_keyring keys = SWIMTAB_KEYRING_INIT;
    if (argc > 2) {
        fputs("usage: follow [KEYS] < PACKETS\nKEYS has one key a line in base64, and no JSON.\n", stderr);
        return 2;
    }
    if (argc == 2) add_keys(&keys, argv[1]);
    swimtab_details details = SWIMTAB_DETAILS_INIT;
    details.name = listener, details.name_len = sizeof listener - 1;
    details.addr = nowhere, details.addr_len = sizeof nowhere;
    check(swimtab_open(&node, &details), "open");
    check(swimtab_watch(&node, true), "watch");
    for (unsigned long number = 1; fgets(line, sizeof line, stdin); number++) {
        take_line(&node, &keys, line, number);
        print_changes(&node);
    }
    swimtab_close(&node);
    swimtab_keyring_close(&keys);
    return ferror(stdin) ? 4 : 0;
}
