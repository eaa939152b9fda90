/* swimtab.h: the membership table of a SWIM cluster, over memberlist's messages, for C and C++.
 *
 *     swimtab_node node = SWIMTAB_NODE_INIT;
 *     swimtab_details details = SWIMTAB_DETAILS_INIT;
 *     details.name = "n1", details.name_len = 2;
 *     details.addr = "\x7f\0\0\x01", details.addr_len = 4, details.port = 7946;
 *     swimtab_status status = swimtab_open(&node, &details);
 *     swimtab_taken taken = swimtab_take(&node, packet, packet_len);
 *     status = swimtab_close(&node);
 *
 * A node is what one member of a cluster knows: who it is, and a table of all members that it has
 * heard of. An agent is a whole member of a memberlist cluster. The library has no sockets, timers or
 * threads. The program passes in the bytes that it received, and sends the bytes that a call writes.
 * docs/EMBEDDING.md is the guide; docs/messages.md has the rules, the bytes and the limits, and
 * docs/faults.md the faults. It is for C99 and later, and for C++98 and later.
 *
 * What every call guarantees
 *
 * - It returns, on any bytes, with a status: SWIMTAB_DONE (0), or the reason why not. A call with any
 *   other status has changed neither the node nor a buffer; only an agent that is told something may heed
 *   a part of it with SWIMTAB_MEMORY.
 * - It keeps no pointer that it was given. A node copies what it needs, and frees that on close.
 * - It writes into a buffer of the caller. If the buffer is too small, the status is
 *   SWIMTAB_TOO_SMALL and `len` is the length needed, so a buffer of length 0 asks for the length.
 *   Bytes of a buffer past those written are unchanged.
 * - A NULL pointer to bytes is a buffer of length 0, whatever length is passed with it. A NULL
 *   handle is an empty one. What NULL means in another place is said where the call is.
 * - Memory comes from malloc and realloc only. If they refuse, the status is SWIMTAB_MEMORY, and the
 *   call may be repeated. No call asks for memory by a number that its input claims. A program with
 *   an allocator of its own gives it these names when it links.
 *
 * What the caller must ensure, and nothing checks
 *
 * - A handle starts as SWIMTAB_NODE_INIT (all bytes zero), and only calls write to it. It may be
 *   moved in memory between calls, but after a copy only one of the two may be used.
 * - A handle is used by one call at a time, even by calls that only read it and take it as const:
 *   swimtab_count as much as swimtab_take, and swimtab_unwrap of one keyring. It may move from thread
 *   to thread if a lock, or starting or joining a thread, orders the calls. Different handles need no
 *   lock: threads that decrypt side by side have keyrings of their own.
 * - A buffer that a call writes overlaps nothing else that is passed to the call.
 * - A length passed with a pointer that is not NULL is at most that of its memory, and below 2^63.
 * - malloc, realloc and free belong to one allocator, whose memory is aligned to 16 bytes.
 * - No call is made in a signal handler, or in the child after a fork of a process with threads.
 */
#ifndef SWIMTAB_H
#define SWIMTAB_H

#include <stdbool.h>
#include <stddef.h>
#include <stdint.h>

#ifdef __cplusplus
extern "C" {
#endif

/* The version, as `swimtab --version` prints it. */
#define SWIMTAB_VERSION_MAJOR 0
#define SWIMTAB_VERSION_MINOR 3
#define SWIMTAB_VERSION_PATCH 0
#define SWIMTAB_VERSION "0.3.0"

/* The version as one number: 10,000 * major + 100 * minor + patch. */
#define SWIMTAB_VERSION_NUMBER 300

/* The length of the longest packet that swimtab_alive, .._suspect, .._confirm, .._leave, .._ping_of and
 * the like write; an ack and a user message may be longer. */
#define SWIMTAB_MAX_PACKET_LEN 2163

/* The version of the linked library, in the form of SWIMTAB_VERSION_NUMBER, which is that of this header.
 * From 0.3 on, as long as the name of the shared library ends in .so.2, calls are only added, and structs
 * grow only into their reserved room, or at their end if they begin with their size. */
uint32_t swimtab_version(void);

/* A handle: it holds a node, or is empty. Its contents belong to the library, but `user` is the
 * program's, and no call reads or writes it. */
typedef struct swimtab_node {
    void *at;
    bool held;
    void *user;
} swimtab_node;

/* An empty handle: swimtab_node node = SWIMTAB_NODE_INIT; */
#define SWIMTAB_NODE_INIT {NULL, false, NULL}

/* A handle that holds a cluster's keys, or is empty. Its contents belong to the library. */
typedef struct swimtab_keyring {
    void *at;
    bool held;
} swimtab_keyring;

/* An empty keyring: swimtab_keyring keyring = SWIMTAB_KEYRING_INIT; */
#define SWIMTAB_KEYRING_INIT {NULL, false}

/* A handle that holds a view, or is empty. Its contents belong to the library, but `user` is the program's. */
typedef struct swimtab_view {
    void *at;
    bool held;
    void *user;
} swimtab_view;

/* An empty view: swimtab_view view = SWIMTAB_VIEW_INIT; */
#define SWIMTAB_VIEW_INIT {NULL, false, NULL}

/* A handle that holds an agent, or is empty. Its contents belong to the library, but `user` is the program's. */
typedef struct swimtab_agent {
    void *at;
    bool held;
    void *user;
} swimtab_agent;

/* An empty agent: swimtab_agent agent = SWIMTAB_AGENT_INIT; */
#define SWIMTAB_AGENT_INIT {NULL, false, NULL}

/* What a member says about itself. A name has 1 to 1,024 bytes of any values, an address 4 or 16, the
 * metadata up to 512, and the versions 0 or 6 (memberlist accepts only members with 6). It starts as
 * SWIMTAB_DETAILS_INIT, which sets `size`, so that later versions may add fields at the end. */
typedef struct swimtab_details {
    size_t size; /* sizeof(swimtab_details) */
    const void *name;
    size_t name_len;
    const void *addr;
    size_t addr_len;
    const void *meta;
    size_t meta_len;
    const void *vsn;
    size_t vsn_len;
    uint32_t inc; /* the incarnation */
    uint16_t port;
} swimtab_details;

#define SWIMTAB_DETAILS_INIT {sizeof(swimtab_details), NULL, 0, NULL, 0, NULL, 0, NULL, 0, 1, 0}

/* The length of a nonce in bytes. */
#define SWIMTAB_NONCE_LEN 12

/* The status of a call: 0, the number of a fault in docs/faults.md, or, from 64 on, a status of the
 * library itself. */
typedef enum swimtab_status {
    SWIMTAB_DONE = 0,
    SWIMTAB_ENDED = 1,             /* the bytes end too soon: of a stream, more may help */
    SWIMTAB_NOT_UNSIGNED = 2,      /* expected a number that is not negative */
    SWIMTAB_OUT_OF_RANGE = 3,      /* a number is above the maximum of its field */
    SWIMTAB_NOT_BOOL = 4,          /* expected a boolean */
    SWIMTAB_NOT_RAW = 5,           /* expected text or bytes */
    SWIMTAB_TOO_LONG = 6,          /* text or bytes are longer than their field allows */
    SWIMTAB_NOT_MAP = 7,           /* expected a map */
    SWIMTAB_MAP_COUNT = 8,         /* a map has more pairs than the message has fields */
    SWIMTAB_MEMORY = 10,           /* out of memory */
    SWIMTAB_NAME_EMPTY = 11,       /* a name is empty */
    SWIMTAB_NAME_TOO_LONG = 12,    /* a name has more than 1,024 bytes */
    SWIMTAB_BAD_ADDRESS = 13,      /* an address does not have 4 or 16 bytes */
    SWIMTAB_META_TOO_LONG = 14,    /* metadata has more than 512 bytes */
    SWIMTAB_BAD_VERSIONS = 15,     /* versions do not have 0 or 6 bytes */
    SWIMTAB_WRONG_TYPE = 16,       /* a message of another type */
    SWIMTAB_UNKNOWN_KEY = 17,      /* a map has a key that the message does not have */
    SWIMTAB_DUPLICATE_KEY = 18,    /* a map has a key twice */
    SWIMTAB_BAD_STATE = 19,        /* a state is not 0, 1, 2 or 3 */
    SWIMTAB_TOO_MANY_NODES = 20,   /* a stream announces more than 131,072 members */
    SWIMTAB_USER_TOO_LONG = 21,    /* a stream has more than 20,971,520 bytes of user state */
    SWIMTAB_TRAILING = 22,         /* bytes follow the end */
    SWIMTAB_TOO_MANY_RECORDS = 23, /* a table has more than 131,072 records, too many for a stream */
    SWIMTAB_EXHAUSTED = 24,        /* there is no greater incarnation */
    SWIMTAB_GONE = 25,             /* the member was declared dead, or left */
    SWIMTAB_WRAPPER_ENDED = 40,    /* a wrapper or compressed bytes end too soon */
    SWIMTAB_WRAPPER_TRAILING = 41, /* bytes follow a compression or its last code */
    SWIMTAB_BAD_CODE = 42,         /* a compression has a code that is not in the dictionary */
    SWIMTAB_BAD_CHECKSUM = 43,     /* a checksum is wrong */
    SWIMTAB_BAD_MAP = 44,          /* the map of a compression is invalid */
    SWIMTAB_BAD_ALGO = 45,         /* a compression is not LZW */
    SWIMTAB_BAD_LABEL = 46,        /* a label is empty */
    SWIMTAB_TOO_LARGE = 47,        /* wrapped bytes, or what they unwrap to, exceed the limit */
    SWIMTAB_TOO_DEEP = 48,         /* more than 4 wrappers are nested */
    SWIMTAB_BAD_KEY = 50,          /* a key does not have 16, 24 or 32 bytes */
    SWIMTAB_CIPHER_TOO_LONG = 51,  /* a label, or what is encrypted, is too long */
    SWIMTAB_CIPHER_TOO_SHORT = 52, /* encrypted bytes end too soon */
    SWIMTAB_WRONG_VERSION = 53,    /* the version of an encryption is not 0 or 1 */
    SWIMTAB_WRONG_TAG = 54,        /* no key decrypts it: the tag does not match */
    SWIMTAB_BAD_PADDING = 55,      /* decrypted bytes are not padded */
    SWIMTAB_NOT_ENCRYPTED = 56,    /* a stream is not encrypted: its first byte is not 10 */
    SWIMTAB_CIPHER_TRAILING = 57,  /* bytes follow an encrypted stream */
    SWIMTAB_UNENCRYPTED = 59,      /* it is in the clear, there are keys, and that is not accepted */
    SWIMTAB_NO_NODE = 64,          /* the handle is empty */
    SWIMTAB_NODE_THERE = 65,       /* the handle has a node, a view or an agent already */
    SWIMTAB_TOO_SMALL = 66,        /* the buffer is too small; `len` is the length needed */
    SWIMTAB_NO_MEMBER = 67,        /* there is no member at this index, or of this name */
    SWIMTAB_OWN_NAME = 68,         /* a member does not declare itself dead; it leaves */
    SWIMTAB_TOO_MANY_PACKETS = 69, /* there are more than 255 packets for one compound packet */
    SWIMTAB_BAD_FORM = 70,         /* the form of a stream is not 0 or 1, or has no user state */
    SWIMTAB_NO_ITEM = 71,          /* there is no key, part or accuser at this index, or no further record or output */
    SWIMTAB_KEY_IN_USE = 72,       /* the first key encrypts, so it is not removed */
    SWIMTAB_NOT_BACK = 73,         /* the member has not come back */
    SWIMTAB_BAD_SIZE = 74,         /* the size of a struct is not that of any version */
    SWIMTAB_BAD_MULTIPLIER = 75,   /* a multiplier of a configuration is too large */
    SWIMTAB_SHORT_DATAGRAMS = 76,  /* a configuration has datagrams of fewer than 576 bytes */
    SWIMTAB_NO_SEED = 77           /* the seed of a configuration was never drawn: all its bytes are 0 */
} swimtab_status;

/* A member's state. SWIMTAB_NOTED is a state of views alone: an Alive at incarnation 0 gave an address, and
 * is not believed. */
enum { SWIMTAB_ALIVE = 0, SWIMTAB_SUSPECT = 1, SWIMTAB_CONFIRM = 2, SWIMTAB_LEAVE = 3, SWIMTAB_NOTED = 4 };

/* What changed in a view. */
enum {
    SWIMTAB_NO_EVENT = 0,
    SWIMTAB_JOINED = 1,         /* a new member: its Alive came in a packet */
    SWIMTAB_KNOWN = 2,          /* a new member: its record came in a stream; or only its address came */
    SWIMTAB_BACK = 3,           /* it was dead or had left, and is alive */
    SWIMTAB_UPDATED = 4,        /* it is alive at a greater incarnation, with other metadata or versions */
    SWIMTAB_RENEWED = 5,        /* it is alive at a greater incarnation, and nothing else changed */
    SWIMTAB_REFUTED = 6,        /* it was suspected, and is alive at a greater incarnation */
    SWIMTAB_SUSPECTED = 7,      /* it was alive, and is suspected */
    SWIMTAB_ALSO_SUSPECTED = 8, /* one more member suspects it */
    SWIMTAB_DEAD = 9,           /* another member declared it dead */
    SWIMTAB_LEFT = 10,          /* it left */
    SWIMTAB_CONFLICT = 11       /* another member uses its name at another address, and is not believed */
};

/* How a table relates to another: they are equal; the other one has more; this one has more; each has
 * something that the other one does not have. */
enum { SWIMTAB_EQUAL = 0, SWIMTAB_BEHIND = 1, SWIMTAB_AHEAD = 2, SWIMTAB_APART = 3 };

/* The form of a stream to write. SWIMTAB_CANONICAL: all that the table keeps, in canonical bytes, and no
 * user state. SWIMTAB_MEMBERLIST: a stream that memberlist merges, with one record for each member: its
 * state, or its newest Alive if it came back, with the newest address, port, metadata and versions.
 * memberlist refuses a whole stream if one of its records has no versions, or unsound ones, so members of
 * which no sound ones are known are left out; swimtab_left_out tells how many. */
enum { SWIMTAB_CANONICAL = 0, SWIMTAB_MEMBERLIST = 1 };

/* The kind of a message: its first byte, as in memberlist's net.go. */
enum {
    SWIMTAB_KIND_PING = 0,
    SWIMTAB_KIND_INDIRECT = 1, /* asks a member to ping another one */
    SWIMTAB_KIND_ACK = 2,
    SWIMTAB_KIND_SUSPECT = 3,
    SWIMTAB_KIND_ALIVE = 4,
    SWIMTAB_KIND_DEAD = 5,
    SWIMTAB_KIND_PUSH_PULL = 6,
    SWIMTAB_KIND_COMPOUND = 7,
    SWIMTAB_KIND_USER = 8, /* the bytes behind the first are the program's */
    SWIMTAB_KIND_NACK = 11,
    SWIMTAB_KIND_ERROR = 13
};

/* The result of taking in a packet or compound packet. */
typedef struct swimtab_taken {
    swimtab_status status;
    bool news; /* whether the table changed; false if the status is not 0 */
} swimtab_taken;

/* The result of writing bytes. */
typedef struct swimtab_written {
    swimtab_status status;
    size_t len; /* how many were written or, with SWIMTAB_TOO_SMALL, are needed; otherwise 0 */
} swimtab_written;

/* The result of unwrapping. */
typedef struct swimtab_unwrapped {
    swimtab_status status;
    uint32_t kind; /* with SWIMTAB_DONE and SWIMTAB_TOO_SMALL: SWIMTAB_KIND_..; otherwise 0 */
    size_t len;    /* the length of the message, as in swimtab_written */
} swimtab_unwrapped;

/* Where a part of a message is. */
typedef struct swimtab_part_place {
    swimtab_status status;
    uint32_t kind; /* the first byte of the part, or 0 if it has none */
    size_t at;     /* its offset in the message */
    size_t len;    /* its length */
} swimtab_part_place;

/* What a ping, an indirect ping, an ack or a nack says. What it has not is 0. */
typedef struct swimtab_probe {
    size_t payload_len;      /* of an ack; `payload` has its first 1,024 bytes */
    uint32_t kind;           /* SWIMTAB_KIND_PING, .._INDIRECT, .._ACK or .._NACK */
    uint32_t seq;            /* the number that the ack and the nack repeat */
    uint16_t port;           /* of an indirect ping: the port of the member to ping */
    uint16_t source_port;    /* the port of the member that asks */
    uint16_t node_len;       /* the name of the member to ping: 0 to 1,024 */
    uint16_t source_len;     /* the name of the member that asks */
    uint8_t addr_len;        /* of an indirect ping: the address of the member to ping: 0, 4 or 16 */
    uint8_t source_addr_len; /* the address of the member that asks */
    bool nack;               /* of an indirect ping: whether a nack is wanted */
    uint8_t addr[16];
    uint8_t source_addr[16];
    uint8_t node[1024];
    uint8_t source[1024];
    uint8_t payload[1024];
    uint8_t reserved[32]; /* zeros, for later versions */
} swimtab_probe;

/* The result of taking in a stream. Unless the status is SWIMTAB_DONE or SWIMTAB_TOO_SMALL, all else is 0. */
typedef struct swimtab_exchanged {
    swimtab_status status;
    bool join;   /* the join flag of the stream that was read */
    bool news;   /* whether the table changed; false unless the status is SWIMTAB_DONE */
    size_t used; /* the length of the stream; bytes after it were not read */
    size_t len;  /* of swimtab_answer: the length of the reply, as in swimtab_written */
} swimtab_exchanged;

/* The result of a refutation. */
typedef struct swimtab_refuted {
    swimtab_status status;
    bool due;     /* whether there was something to refute, which is now refuted */
    uint32_t inc; /* if so, the incarnation at which the member is alive again; otherwise 0 */
} swimtab_refuted;

/* The result of a comparison. */
typedef struct swimtab_related {
    swimtab_status status;
    uint32_t relation; /* SWIMTAB_EQUAL, .._BEHIND, .._AHEAD or .._APART; 0 if the status is not 0 */
} swimtab_related;

/* What a node knows about a member. Bytes of an array past its length are unchanged by the call. */
typedef struct swimtab_member_data {
    uint32_t state;    /* SWIMTAB_ALIVE, .._SUSPECT, .._CONFIRM or .._LEAVE */
    uint32_t inc;      /* the incarnation of that state */
    bool has_address;  /* whether an Alive was ever seen; if not, all below is 0, except the name */
    bool came_back;    /* whether the newest address has a greater incarnation than the state: the member
                        * was declared dead or left, and has been heard of again */
    /* the newest address: the Alive with the greatest incarnation, then the greatest of what follows; it
     * need not be the Alive that came last */
    uint32_t address_inc; /* its incarnation; its port, metadata, address and versions follow */
    uint16_t port;
    uint16_t name_len; /* 1 to 1,024 */
    uint16_t meta_len; /* 0 to 512 */
    uint8_t addr_len;  /* 4 or 16, or 0 without an address */
    uint8_t vsn_len;   /* 0 or 6 */
    uint8_t addr[16];
    uint8_t vsn[6];
    uint8_t meta[512];
    uint8_t name[1024];   /* any bytes, without a terminating zero */
    uint8_t reserved[32]; /* zeros, for later versions */
} swimtab_member_data;

/* The result of telling a view something. */
typedef struct swimtab_told {
    swimtab_status status;
    uint32_t event; /* what changed: SWIMTAB_JOINED and the like; SWIMTAB_NO_EVENT if the status is not 0 */
} swimtab_told;

/* What a view shows of a member. Bytes of an array past its length are unchanged by the call. */
typedef struct swimtab_view_data {
    uint64_t since;    /* the time at which the state began */
    uint32_t state;    /* SWIMTAB_ALIVE, .._SUSPECT, .._CONFIRM, .._LEAVE or .._NOTED */
    uint32_t inc;      /* the incarnation of that state */
    uint16_t port;     /* the address and all else of the newest Alive that was believed */
    uint16_t name_len; /* 1 to 1,024 */
    uint16_t meta_len; /* 0 to 512 */
    uint16_t by_len;   /* 0 if nobody is named */
    uint8_t accusers;  /* how many members that are named suspect it, up to 255: swimtab_view_accuser */
    uint8_t rivals;    /* how many other addresses claimed its name since, up to 255 */
    uint8_t addr_len;  /* 4 or 16 */
    uint8_t vsn_len;   /* 0 or 6 */
    uint8_t addr[16];
    uint8_t vsn[6];
    uint8_t meta[512];
    uint8_t name[1024];
    uint8_t by[1024];     /* the last of its accusers, or who declared it dead */
    uint8_t reserved[32]; /* zeros, for later versions */
} swimtab_view_data;

/* Where a member is. */
typedef struct swimtab_place {
    uint8_t addr[16];
    uint8_t addr_len; /* 4 or 16 */
    uint16_t port;
} swimtab_place;

/* What an agent begins with. It starts as SWIMTAB_AGENT_CONFIG_INIT, which sets `size`, so that later versions may add
 * fields at the end. The first fields are as in swimtab_details; versions 01 05 02 00 00 00 are those of a member of
 * memberlist without a delegate. Those from `probe_interval` on are memberlist's configuration, by its names: intervals
 * and times are milliseconds, and 0 is memberlist's value for a local network, which the comment has. */
typedef struct swimtab_agent_config {
    size_t size; /* sizeof(swimtab_agent_config) */
    const void *name;
    size_t name_len;
    const void *addr;
    size_t addr_len;
    const void *meta;
    size_t meta_len;
    const void *vsn;
    size_t vsn_len;
    const void *label; /* the label of the cluster, of at most 255 bytes, or none */
    size_t label_len;
    const swimtab_keyring *keys; /* copied; NULL: nothing is encrypted */
    uint32_t inc;                /* the first incarnation; what others say of an earlier life is refuted */
    uint32_t probe_interval;          /* 1,000 */
    uint32_t probe_timeout;           /* 500 */
    uint32_t indirect_checks;         /* 3 */
    uint32_t push_pull_interval;      /* 30,000 */
    uint32_t gossip_interval;         /* 200 */
    uint32_t gossip_nodes;            /* 3 */
    uint32_t gossip_to_the_dead_time; /* 30,000 */
    uint32_t tcp_timeout;             /* 10,000 */
    uint32_t reconnect_interval;      /* 30,000: Serf's ReconnectInterval */
    uint32_t reconnect_timeout;       /* 86,400,000: Serf's ReconnectTimeout */
    uint16_t retransmit_mult;            /* 4 */
    uint16_t suspicion_mult;             /* 4; at most 6 */
    uint16_t suspicion_max_timeout_mult; /* 6 */
    uint16_t awareness_max_multiplier;   /* 8 */
    uint16_t udp_buffer_size;            /* 1,400: the most bytes of a datagram; at least 576 */
    uint16_t port;
    bool is_silent;   /* it only answers, joins, leaves and refutes: it probes, gossips and suspects nobody */
    bool is_uncompressed; /* it compresses nothing; else what becomes shorter by that (EnableCompression) */
    uint8_t seed[32]; /* random bytes, of which its generator makes nonces and choices; never used twice with a key,
                       * and never all 0 */
} swimtab_agent_config;

#define SWIMTAB_AGENT_CONFIG_INIT \
    {sizeof(swimtab_agent_config), NULL, 0, NULL, 0, NULL, 0, NULL, 0, NULL, 0, NULL, 1, 0, 0, 0, 0, 0, 0, 0, 0, 0, 0, \
     0, 0, 0, 0, 0, 0, false, false, {0}}

/* What an agent put out. */
enum {
    SWIMTAB_OUT_SEND = 1,       /* send the bytes as a datagram to `to` */
    SWIMTAB_OUT_DIAL = 2,       /* open a stream to `to`; from now on it is `stream` */
    SWIMTAB_OUT_WRITE = 3,      /* write the bytes to `stream` */
    SWIMTAB_OUT_CLOSE = 4,      /* close `stream` once all is written */
    SWIMTAB_OUT_CHANGED = 5,    /* what is shown of `name` changed: `event`, at `inc`; `by`, if named, says so */
    SWIMTAB_OUT_UNANSWERED = 6, /* `name` did not answer the probe `seq`; `nacks` nacks came of `expected` */
    SWIMTAB_OUT_UNTOLD = 7,     /* a claim about `name` fits no datagram, so it is told with tables alone */
    SWIMTAB_OUT_REFUTED = 8,    /* the agent was taken for suspect or dead, and said that it is alive at `inc` */
    SWIMTAB_OUT_EXHAUSTED = 9,  /* the same, but there is no greater incarnation */
    SWIMTAB_OUT_FORGOTTEN = 10, /* `count` members that were gone for long are forgotten */
    SWIMTAB_OUT_DEPARTED = 11,  /* the leave was told: the agent may be closed */
    SWIMTAB_OUT_USER = 12,      /* the bytes are another program's message */
    SWIMTAB_OUT_USER_STATE = 13, /* the bytes are another program's state, from a member that joins if `join` */
    SWIMTAB_OUT_INCOMPATIBLE = 14 /* the table that came over `stream` is not merged: of those that are alive in it, or
                                   * shown, not all understand each other's versions (memberlist's verifyProtocol) */
};

/* One output of an agent. What it has not is 0. Bytes of an array past its length are unchanged by the call. */
typedef struct swimtab_agent_out {
    uint64_t stream;
    size_t count;
    uint32_t kind;  /* SWIMTAB_OUT_.. */
    uint32_t event; /* SWIMTAB_JOINED and the like */
    uint32_t inc;
    uint32_t seq;
    uint32_t expected;
    uint32_t nacks;
    swimtab_place to;
    uint16_t name_len; /* 1 to 1,024 */
    uint16_t by_len;   /* 0 if nobody is named */
    bool join;
    uint8_t name[1024];
    uint8_t by[1024];
    uint8_t reserved[32]; /* zeros, for later versions */
} swimtab_agent_out;

/* Bytes in memory of the library, or none. The program reads `len` bytes at `at`, and writes nothing here;
 * `kept` belongs to the library. A buffer is used by one call at a time. It may be moved in memory between
 * calls, but after a copy only one of the two may be used. A refused call leaves it unchanged; one that
 * succeeds first frees the bytes that it held. */
typedef struct swimtab_buffer {
    const uint8_t *at;
    size_t len;
    struct {
        void *at;
        bool held;
    } kept;
} swimtab_buffer;

/* An empty buffer: swimtab_buffer buffer = SWIMTAB_BUFFER_INIT; */
#define SWIMTAB_BUFFER_INIT {NULL, 0, {NULL, false}}

/* How far a stream that comes in pieces has been read. It starts as SWIMTAB_PROGRESS_INIT (all bytes
 * zero). */
typedef struct swimtab_progress {
    size_t at;         /* the offset of the first byte that was not read */
    uint32_t left;     /* how many records are still to come */
    uint32_t user_len; /* the length of the user state after them */
    bool has_header;   /* whether the header was read */
} swimtab_progress;

#define SWIMTAB_PROGRESS_INIT {0, 0, 0, false}

/* --------------------- opening: a node opened, given other details, and closed */

/* Opens a node in an empty handle: the member with this name and these details, alive at the incarnation
 * `inc`, which knows of nobody else yet. The caller must close the node with swimtab_close. `user` of the
 * handle stays.
 *
 * SWIMTAB_DONE; SWIMTAB_NODE_THERE, .._NAME_EMPTY, .._NAME_TOO_LONG, .._BAD_ADDRESS,
 * .._META_TOO_LONG, .._BAD_VERSIONS, .._MEMORY: the handle is unchanged; SWIMTAB_BAD_SIZE: `details` is
 * NULL, or its size is that of no version. If the handle is NULL, SWIMTAB_NO_NODE. */
swimtab_status swimtab_open(swimtab_node *node, const swimtab_details *details);

/* Gives the member other details; the name and the incarnation in them are not used. If the node's table
 * says otherwise, the member is then alive with them at the next incarnation, `inc`, as after
 * swimtab_refute, and swimtab_alive writes the packet to send to the others.
 *
 * The statuses of swimtab_refute, and SWIMTAB_BAD_ADDRESS, .._META_TOO_LONG, .._BAD_VERSIONS,
 * .._BAD_SIZE. Unless it is SWIMTAB_DONE nothing has changed. */
swimtab_refuted swimtab_update(swimtab_node *node, const swimtab_details *details);

/* Frees the node. The handle is then empty, and may be opened again.
 *
 * SWIMTAB_DONE; SWIMTAB_NO_NODE: the handle was empty, so closing twice is fine. */
swimtab_status swimtab_close(swimtab_node *node);

/* --------------------- gossip: packets taken in and written */

/* Takes in the claim of a packet, or all claims of a compound packet: one UDP payload without wrappers,
 * as swimtab_unwrap writes it. `news` is whether the table changed; a program that gossips passes on the
 * packets that have news. Reading the texts and bytes of a packet may take memory. If the name is known,
 * only newer metadata keeps some of it.
 *
 * SWIMTAB_DONE, even if there is no news; SWIMTAB_NO_NODE; SWIMTAB_MEMORY; if the bytes are not a packet
 * or compound packet, the fault at which reading stops: .._ENDED to .._MAP_COUNT, .._NAME_EMPTY,
 * .._BAD_ADDRESS, .._BAD_VERSIONS, .._WRONG_TYPE, .._UNKNOWN_KEY, .._DUPLICATE_KEY, .._TRAILING. Then
 * none of the claims was taken in. */
swimtab_taken swimtab_take(swimtab_node *node, const void *bytes, size_t len);

/* Refutes what others say about the member, if its own table has it suspected, or alive with details
 * other than its own. The member is then alive at the next incarnation, `inc`, and swimtab_alive writes
 * the packet to send to the others.
 *
 * SWIMTAB_DONE, with `due` false if there was nothing to refute; SWIMTAB_NO_NODE; SWIMTAB_EXHAUSTED:
 * there is no greater incarnation; SWIMTAB_GONE: the member was declared dead, or left, which is final;
 * SWIMTAB_MEMORY. Unless it is SWIMTAB_DONE nothing has changed. */
swimtab_refuted swimtab_refute(swimtab_node *node);

/* Writes the packet that says that the member is alive at this incarnation, with its own address, port,
 * metadata and versions. The node does not change. Pass the incarnation of swimtab_open at first, and
 * later those that swimtab_refute returns.
 *
 * SWIMTAB_DONE; SWIMTAB_TOO_SMALL; SWIMTAB_NO_NODE; SWIMTAB_MEMORY. */
swimtab_written swimtab_alive(const swimtab_node *node, uint32_t inc, void *out, size_t out_len);

/* Writes the packet that says that another member is alive, as a member passes it on. It needs no node.
 *
 * SWIMTAB_DONE; SWIMTAB_TOO_SMALL; SWIMTAB_NAME_EMPTY, .._NAME_TOO_LONG, .._BAD_ADDRESS,
 * .._META_TOO_LONG, .._BAD_VERSIONS: the first part that is invalid; SWIMTAB_BAD_SIZE; SWIMTAB_MEMORY. */
swimtab_written swimtab_alive_of(const swimtab_details *details, void *out, size_t out_len);

/* Writes the packet by which the member suspects the member of this name. The incarnation is that of the
 * Alive that it no longer believes. The node does not change: pass the packet to swimtab_take to add the
 * claim to its own table.
 *
 * SWIMTAB_DONE; SWIMTAB_TOO_SMALL; SWIMTAB_NO_NODE; SWIMTAB_NAME_EMPTY;
 * SWIMTAB_NAME_TOO_LONG; SWIMTAB_MEMORY. */
swimtab_written swimtab_suspect(const swimtab_node *node, const void *name, size_t name_len,
                                uint32_t inc, void *out, size_t out_len);

/* Writes the packet by which the member declares the member of this name dead. Otherwise like
 * swimtab_suspect.
 *
 * SWIMTAB_DONE; SWIMTAB_TOO_SMALL; SWIMTAB_NO_NODE; SWIMTAB_OWN_NAME: the name is the member's own;
 * SWIMTAB_NAME_EMPTY; SWIMTAB_NAME_TOO_LONG; SWIMTAB_MEMORY. */
swimtab_written swimtab_confirm(const swimtab_node *node, const void *name, size_t name_len,
                                uint32_t inc, void *out, size_t out_len);

/* Writes the packet by which the member itself leaves, at this incarnation. The node does not change.
 *
 * SWIMTAB_DONE; SWIMTAB_TOO_SMALL; SWIMTAB_NO_NODE; SWIMTAB_MEMORY. */
swimtab_written swimtab_leave(const swimtab_node *node, uint32_t inc, void *out, size_t out_len);

/* Writes the packet by which the member of the name `from` suspects the member of this name, or declares
 * it dead; with its own name it leaves. They need no node, and `from` may be empty.
 *
 * SWIMTAB_DONE; SWIMTAB_TOO_SMALL; SWIMTAB_NAME_EMPTY; SWIMTAB_NAME_TOO_LONG; SWIMTAB_MEMORY. */
swimtab_written swimtab_suspect_of(const void *from, size_t from_len, const void *name, size_t name_len,
                                   uint32_t inc, void *out, size_t out_len);

swimtab_written swimtab_dead_of(const void *from, size_t from_len, const void *name, size_t name_len,
                                uint32_t inc, void *out, size_t out_len);

/* Writes one compound packet from up to 255 packets. `packets` has their bytes one after the other, `len`
 * bytes in all, and `lens` has the length of each of the `count` packets. Each is written in its canonical
 * form, which is the form in which the calls above write packets. It needs no node.
 *
 * SWIMTAB_DONE; SWIMTAB_TOO_SMALL; SWIMTAB_TOO_MANY_PACKETS; SWIMTAB_ENDED: the sum of the lengths is
 * above `len`; SWIMTAB_TRAILING: it is below; SWIMTAB_MEMORY; if one is not a packet, the fault of the
 * first such one, as in swimtab_take, and SWIMTAB_WRONG_TYPE also if it is a compound packet. */
swimtab_written swimtab_compound(const void *packets, size_t len, const size_t *lens, size_t count,
                                 void *out, size_t out_len);

/* --------------------- messages: the parts of a message, pings, their answers, and messages of the program */

/* Tells where the part of a message at index `i` is, from 0. A compound packet has up to 255 parts, and
 * none after the first that is cut off; any other message is its own part. So a program reads the parts
 * one by one, and a bad part refuses only itself. A part may be a compound packet again, which memberlist
 * never writes: limit how deep you look. It needs no node.
 *
 * SWIMTAB_DONE; SWIMTAB_NO_ITEM: there are `i` parts or fewer. */
swimtab_part_place swimtab_part(const void *message, size_t len, size_t i);

/* Reads a ping, an indirect ping, an ack or a nack, as memberlist's handlers do: keys that they do not
 * know are passed over. If `probe` is NULL, nothing is copied. It needs no node.
 *
 * SWIMTAB_DONE; SWIMTAB_WRONG_TYPE: it is another message; SWIMTAB_NAME_TOO_LONG: a name has more than
 * 1,024 bytes; SWIMTAB_BAD_ADDRESS: an address does not have 4 or 16 bytes, or none; SWIMTAB_MEMORY; the
 * fault at which reading stops: it is no message. Unless it is SWIMTAB_DONE `probe` is unchanged. */
swimtab_status swimtab_read(const void *message, size_t len, swimtab_probe *probe);

/* Write a ping to the member of this name, an indirect ping, which asks a member to ping the one in
 * `target`, and the ack and the nack to a ping with this number. Of `target` the name, the address and the
 * port are told, and of `source`, the member that asks, the same; a NULL source is none, and names and
 * addresses may be empty. An ack's payload has at most 65,535 bytes. They need no node.
 *
 * SWIMTAB_DONE; SWIMTAB_TOO_SMALL; SWIMTAB_NAME_TOO_LONG; SWIMTAB_BAD_ADDRESS; SWIMTAB_TOO_LONG: the
 * payload is too long; SWIMTAB_BAD_SIZE: `target` is NULL, or a size is that of no version;
 * SWIMTAB_MEMORY. */
swimtab_written swimtab_ping_of(uint32_t seq, const void *name, size_t name_len,
                                const swimtab_details *source, void *out, size_t out_len);

swimtab_written swimtab_indirect_of(uint32_t seq, const swimtab_details *target, bool nack,
                                    const swimtab_details *source, void *out, size_t out_len);

swimtab_written swimtab_ack_of(uint32_t seq, const void *payload, size_t payload_len, void *out,
                               size_t out_len);

swimtab_written swimtab_nack_of(uint32_t seq, void *out, size_t out_len);

/* Writes a user message with these bytes, for the program that uses memberlist at the other end.
 *
 * SWIMTAB_DONE; SWIMTAB_TOO_SMALL; SWIMTAB_MEMORY. */
swimtab_written swimtab_user_of(const void *bytes, size_t len, void *out, size_t out_len);

/* --------------------- exchanges: whole tables sent, answered and taken in */

/* Writes the node's table as a push/pull stream, which begins an exchange, in the form SWIMTAB_CANONICAL
 * or SWIMTAB_MEMBERLIST. memberlist sets `join` when a member joins. `user` is the user state at the end
 * of a stream for memberlist, which its delegates read, or NULL. It takes no memory; without a buffer it
 * only adds up lengths.
 *
 * SWIMTAB_DONE; SWIMTAB_TOO_SMALL; SWIMTAB_NO_NODE; SWIMTAB_BAD_FORM: also for user state in the
 * canonical form; SWIMTAB_USER_TOO_LONG; SWIMTAB_TOO_MANY_RECORDS. */
swimtab_written swimtab_offer(const swimtab_node *node, bool join, uint32_t form, const void *user,
                              size_t user_len, void *out, size_t out_len);

/* How many members an offer in the form SWIMTAB_MEMBERLIST leaves out, because no Alive of them with sound
 * versions is known; 0 if the handle is empty. */
size_t swimtab_left_out(const swimtab_node *node);

/* The canonical form without the join flag: the bytes that `swimtab merge` prints for the table. */
swimtab_written swimtab_dump(const swimtab_node *node, void *out, size_t out_len);

/* Answers an offer: reads the stream, writes the node's table as it was before in this form, with the same
 * join flag and with this user state, and takes the stream in. All memory is obtained before the reply
 * is written, and none for the reply itself; without a buffer the call only reads the stream and adds up
 * lengths. Bytes after the stream are not read; `used` is where it ends.
 *
 * SWIMTAB_DONE; SWIMTAB_TOO_SMALL: nothing was written or taken in, and `join`, `used` and `len` are what
 * they would be; SWIMTAB_NO_NODE; SWIMTAB_BAD_FORM; SWIMTAB_TOO_MANY_RECORDS; SWIMTAB_MEMORY; if the bytes
 * do not begin with a stream, the fault at which reading stops: .._ENDED to .._MAP_COUNT, .._NAME_EMPTY,
 * .._BAD_ADDRESS, .._BAD_VERSIONS to .._USER_TOO_LONG. After SWIMTAB_ENDED, and only then, more bytes may
 * help. Unless it is SWIMTAB_DONE nothing has changed. */
swimtab_exchanged swimtab_answer(swimtab_node *node, const void *stream, size_t len, uint32_t form,
                                 const void *user, size_t user_len, void *out, size_t out_len);

/* Takes in a stream: the reply to an offer, or a dump. `len` of the result is 0.
 *
 * The statuses of swimtab_answer, except SWIMTAB_TOO_SMALL, SWIMTAB_BAD_FORM and SWIMTAB_TOO_MANY_RECORDS.
 * Unless it is SWIMTAB_DONE nothing was taken in. */
swimtab_exchanged swimtab_finish(swimtab_node *node, const void *stream, size_t len);

/* Like swimtab_offer and swimtab_answer, but the bytes are in memory of the library: the buffer holds them
 * in place of those that it held before, and swimtab_free frees them. They are encoded once. `len` of the
 * result of swimtab_answer_new is the length of the reply. A NULL buffer is SWIMTAB_TOO_SMALL.
 *
 * The statuses of those calls, except SWIMTAB_TOO_SMALL; SWIMTAB_MEMORY also for the bytes. */
swimtab_status swimtab_offer_new(const swimtab_node *node, bool join, uint32_t form, const void *user,
                                 size_t user_len, swimtab_buffer *buffer);

swimtab_exchanged swimtab_answer_new(swimtab_node *node, const void *stream, size_t len, uint32_t form,
                                     const void *user, size_t user_len, swimtab_buffer *buffer);

/* Frees the bytes of a buffer, which is then empty. An empty buffer, or NULL, is left as it is. */
void swimtab_free(swimtab_buffer *buffer);

/* Tells whether the bytes that came so far begin with a whole stream, if a stream comes in pieces. Start
 * with SWIMTAB_PROGRESS_INIT; pass each later call the progress that the last call left, and bytes that
 * begin with those of the last call. It resumes after the last whole record, so that each record is read
 * once, however many pieces there are. It keeps no memory. With any other progress the call is just as
 * safe, but its result means nothing.
 *
 * SWIMTAB_DONE: there is a whole stream of `at` + `user_len` bytes; SWIMTAB_ENDED: the bytes end before
 * it does; SWIMTAB_MEMORY: the same call may be repeated; otherwise the fault at which reading stops:
 * the bytes do not begin with a stream, whatever follows. */
swimtab_status swimtab_whole(swimtab_progress *progress, const void *bytes, size_t len);

/* --------------------- wrapping: keys, and packets and streams as a cluster sends them */

/* Adds a key of 16, 24 or 32 bytes after those that are there. The first key encrypts; to decrypt, all
 * are tried in order. The keyring copies what it needs of the key. It is used by one call at a time, as a
 * node is, and freed by swimtab_keyring_close. With a key, what is in the clear is refused, as memberlist
 * does by default: anyone who reaches the program's port can send that.
 *
 * SWIMTAB_DONE; SWIMTAB_BAD_KEY: another length; SWIMTAB_MEMORY: the keyring is unchanged. If the handle
 * is NULL, SWIMTAB_NO_NODE. */
swimtab_status swimtab_keyring_add(swimtab_keyring *keyring, const void *key, size_t key_len);

/* From now on, packets and streams in the clear are read too, while a cluster begins or ends to encrypt.
 * swimtab_keyring_close ends it.
 *
 * SWIMTAB_DONE; SWIMTAB_NO_NODE: the handle has no key. */
swimtab_status swimtab_keyring_accept_clear(swimtab_keyring *keyring);

/* How many keys there are; 0 if the handle is empty. */
size_t swimtab_keyring_count(const swimtab_keyring *keyring);

/* Writes the key at index `i`, from 0. The keyring does not change.
 *
 * SWIMTAB_DONE; SWIMTAB_TOO_SMALL; SWIMTAB_NO_ITEM: there are `i` keys or fewer. */
swimtab_written swimtab_keyring_key(const swimtab_keyring *keyring, size_t i, void *out,
                                    size_t out_len);

/* From now on the key at index `i` encrypts: it and the first one change places. So a cluster changes its
 * key: add the new one on all members, then use it on all, then remove the old one.
 *
 * SWIMTAB_DONE; SWIMTAB_NO_ITEM: there is no such key, and nothing has changed. */
swimtab_status swimtab_keyring_use(swimtab_keyring *keyring, size_t i);

/* Removes the key at index `i` and overwrites it; the later ones move up.
 *
 * SWIMTAB_DONE; SWIMTAB_NO_ITEM: there is no such key; SWIMTAB_KEY_IN_USE: it is the first one, which
 * encrypts. With the last two nothing has changed. */
swimtab_status swimtab_keyring_remove(swimtab_keyring *keyring, size_t i);

/* Overwrites the keys and frees the keyring. The handle is then empty, and keys may be added again.
 *
 * SWIMTAB_DONE; SWIMTAB_NO_NODE: the handle was empty. */
swimtab_status swimtab_keyring_close(swimtab_keyring *keyring);

/* Writes the message in a packet, one UDP payload as a member sends it: removes its label, checksum and
 * compression, and decrypts it with the keys. Any message is written, and its kind told: swimtab_part
 * finds the parts of a compound one, swimtab_take takes in those that make claims, and swimtab_read reads
 * pings and their answers. With keys, packets in the clear are refused, unless
 * swimtab_keyring_accept_clear accepts them. Neither the message, nor what is compressed or encrypted, may
 * have more than 1,048,576 bytes. A NULL keyring has no key; then an encrypted packet is written as it is,
 * and looks like a ping that swimtab_read refuses. The keyring does not change.
 *
 * SWIMTAB_DONE; SWIMTAB_TOO_SMALL; SWIMTAB_MEMORY; SWIMTAB_WRONG_TYPE: it begins like no message;
 * SWIMTAB_ENDED: it is empty, and there are no keys; .._WRAPPER_ENDED to .._TOO_DEEP: its wrappers are
 * invalid;
 * SWIMTAB_WRONG_TAG: there are keys, and none decrypts it; SWIMTAB_UNENCRYPTED: it is in the clear, and
 * refused. */
swimtab_unwrapped swimtab_unwrap(const swimtab_keyring *keyring, const void *packet, size_t len,
                                 void *out, size_t out_len);

/* Writes the message in the bytes of one direction of a TCP connection, in the same way: a push/pull
 * stream, which swimtab_whole, swimtab_answer and swimtab_finish read, a ping or its ack, a user message,
 * or an error. Neither it, nor what is compressed or encrypted, may have more than 268,435,456 bytes.
 *
 * `label` is the label of the cluster, or empty. In a cluster with a label only the side that opened the
 * connection writes the label before its stream; the other side does not, but authenticates it as well.
 * So a stream that does not begin with a label is read as if it began with this one. A stream that begins
 * with any label is read as it is.
 *
 * SWIMTAB_DONE; SWIMTAB_ENDED: the bytes end too soon, and more may help; SWIMTAB_TOO_SMALL;
 * SWIMTAB_MEMORY; SWIMTAB_WRONG_TYPE: it begins like no message; without a key also if it is encrypted;
 * .._WRAPPER_TRAILING to .._TOO_DEEP; .._CIPHER_TOO_LONG to .._CIPHER_TRAILING: it is encrypted and no key
 * decrypts it; the fault is that of the last key; SWIMTAB_CIPHER_TOO_LONG also if the label has more than
 * 255 bytes; SWIMTAB_UNENCRYPTED: it is in the clear, and refused. */
swimtab_unwrapped swimtab_unwrap_stream(const swimtab_keyring *keyring, const void *label,
                                        size_t label_len, const void *stream, size_t len, void *out,
                                        size_t out_len);

/* The same in memory of the library, as in swimtab_offer_new, so that a message is unwrapped once,
 * whatever its length. The statuses are those of the two calls above, except that SWIMTAB_TOO_SMALL is a
 * NULL buffer. */
swimtab_unwrapped swimtab_unwrap_new(const swimtab_keyring *keyring, const void *packet, size_t len,
                                     swimtab_buffer *buffer);

swimtab_unwrapped swimtab_unwrap_stream_new(const swimtab_keyring *keyring, const void *label,
                                            size_t label_len, const void *stream, size_t len,
                                            swimtab_buffer *buffer);

/* Writes a packet with this message, as memberlist sends it: the label, if it is not empty, and then the
 * message, encrypted with the first key and the nonce of SWIMTAB_NONCE_LEN bytes, which authenticates the
 * label too. Never use a nonce twice with one key, for packets or streams: whoever sees both can read
 * them and forge others. Draw each nonce at random. Without a key the message is not encrypted, and the
 * nonce is not read. The keyring does not change. A NULL nonce is 12 zero bytes, for calls without a key.
 *
 * SWIMTAB_DONE; SWIMTAB_TOO_SMALL; SWIMTAB_MEMORY; SWIMTAB_CIPHER_TOO_LONG: the label has more than 255
 * bytes, or the message that is to be encrypted more than 2^36 - 32. */
swimtab_written swimtab_seal(const swimtab_keyring *keyring, const void *nonce, const void *label,
                             size_t label_len, const void *message, size_t len, void *out,
                             size_t out_len);

/* Writes a stream with this message in the same way; a message to be encrypted has at most 268,435,427
 * bytes. `reply` is false on the side that opened the connection, for what swimtab_offer wrote, and true
 * on the other side, for what swimtab_answer wrote. No label is written before a reply; if the reply is
 * encrypted it authenticates the label all the same. A label of more than 255 bytes is refused in each
 * case, with a key and without, as swimtab_seal refuses it. */
swimtab_written swimtab_seal_stream(const swimtab_keyring *keyring, const void *nonce,
                                    const void *label, size_t label_len, bool reply,
                                    const void *message, size_t len, void *out, size_t out_len);

/* --------------------- members: the members of the table, listed, found and compared */

/* How many members the node knows of, itself included; 0 if the handle is empty. */
size_t swimtab_count(const swimtab_node *node);

/* Copies what the node knows about the member at index `i`, from 0, in the byte order of the names. Its
 * time grows with the index: swimtab_after walks over all members with a search for each. It takes no
 * memory. If `member` is NULL, nothing is copied, and only the status is returned.
 *
 * SWIMTAB_DONE; SWIMTAB_NO_MEMBER: `i` is the count or above; SWIMTAB_NO_NODE. With the last two `member`
 * is unchanged. */
swimtab_status swimtab_member(const swimtab_node *node, size_t i, swimtab_member_data *member);

/* The same for the member of this name. A name that no member has, or can have, is SWIMTAB_NO_MEMBER. */
swimtab_status swimtab_find(const swimtab_node *node, const void *name, size_t name_len,
                            swimtab_member_data *member);

/* The same for the first member whose name is above this one in byte order. So a walk over all members
 * goes on where it was, whatever changes in between; it begins with an empty name. */
swimtab_status swimtab_after(const swimtab_node *node, const void *name, size_t name_len,
                             swimtab_member_data *member);

/* Writes the listing of the table, as `swimtab list` prints it: a line with the name, state, incarnation
 * and newest address of each member, without a terminating zero.
 *
 * SWIMTAB_DONE; SWIMTAB_TOO_SMALL; SWIMTAB_NO_NODE; SWIMTAB_MEMORY. */
swimtab_written swimtab_list(const swimtab_node *node, void *out, size_t out_len);

/* The same in memory of the library, as in swimtab_offer_new. */
swimtab_status swimtab_list_new(const swimtab_node *node, swimtab_buffer *buffer);

/* How the table of the first node relates to that of the second, by comparing each with their merge. A
 * handle is equal to itself.
 *
 * SWIMTAB_DONE; SWIMTAB_NO_NODE: one of the two is empty. */
swimtab_related swimtab_relate(const swimtab_node *first, const swimtab_node *second);

/* --------------------- changes: members that changed, are forgotten, or came back */

/* Starts to note the names of the members whose entries change, with none noted yet, or stops and drops
 * the noted names. swimtab_take, swimtab_answer, swimtab_finish, swimtab_refute and swimtab_update note a
 * name if it is new or its entry changes. A name that changes several times is noted once. A node that was just opened
 * does not note names. It takes no memory.
 *
 * While names are noted, those calls obtain the memory for it before anything changes: with SWIMTAB_MEMORY
 * the table and the noted names are unchanged. Any packet may then take memory, even one about a known
 * name.
 *
 * SWIMTAB_DONE; SWIMTAB_NO_NODE. */
swimtab_status swimtab_watch(swimtab_node *node, bool on);

/* Copies what the node knows about the first noted name, in byte order, and no longer notes that name. So
 * a program that calls this until it returns SWIMTAB_NO_MEMBER sees each member that changed, as it is
 * now. It takes no memory. If `member` is NULL, the name is dropped, and nothing is copied.
 *
 * SWIMTAB_DONE; SWIMTAB_NO_MEMBER: no name is noted; SWIMTAB_NO_NODE. With the last two `member` and the
 * noted names are unchanged. */
swimtab_status swimtab_next_change(swimtab_node *node, swimtab_member_data *member);

/* Forgets a name: the table is then that of all claims taken in that are not about this name. Nothing else
 * makes a table shrink. Whatever comes about the name later is taken in as about a new one, even an old
 * death or leave that another member still tells; so forget a name only when the others have forgotten it
 * as well. If it is the member's own name, its own claims go too. A noted name is no longer noted. It
 * takes no memory.
 *
 * SWIMTAB_DONE; SWIMTAB_NO_NODE; SWIMTAB_NO_MEMBER: the table has no such name. */
swimtab_status swimtab_forget(swimtab_node *node, const void *name, size_t name_len);

/* Believes a member that came back, as memberlist does: of all that was said about it only its newest
 * Alive is left, which is newer than its death or its leave. swimtab_member_data tells by `came_back`. So
 * a program that lives with members of memberlist keeps their company; members that use only this library
 * need it not, and then differ from those that call it. It notes no name. It takes memory for a table of
 * this size.
 *
 * SWIMTAB_DONE; SWIMTAB_NO_NODE; SWIMTAB_NO_MEMBER: the table has no such name; SWIMTAB_NOT_BACK;
 * SWIMTAB_MEMORY. Unless it is SWIMTAB_DONE nothing has changed. */
swimtab_status swimtab_readmit(swimtab_node *node, const void *name, size_t name_len);

/* --------------------- views: the members as memberlist shows them, with times, events and accusers */

/* Opens a view in an empty handle: what a member of memberlist shows that hears what the view is told, at
 * these times, by the rules of memberlist's state.go. A member that died or left may come back, and one that
 * is suspected stays so until somebody refutes it or declares it dead. A node is the other model: there, the
 * same claims in any order give the same table, and death is final.
 *
 * `wait` is for how long a member that died or left is remembered (memberlist's GossipToTheDeadTime, 30
 * seconds in a local network). It and all times are microseconds, of any clock that never goes back. The
 * caller must close the view with swimtab_view_close. `user` of the handle stays.
 *
 * SWIMTAB_DONE; SWIMTAB_NODE_THERE, SWIMTAB_MEMORY: the handle is unchanged. If the handle is NULL,
 * SWIMTAB_NO_NODE. */
swimtab_status swimtab_view_open(swimtab_view *view, uint64_t wait);

/* Frees the view. The handle is then empty, and may be opened again.
 *
 * SWIMTAB_DONE; SWIMTAB_NO_NODE: the handle was empty. */
swimtab_status swimtab_view_close(swimtab_view *view);

/* Tells the view the claim of a message that came at this time: one that is not a compound one, as
 * swimtab_part finds it. Keys that memberlist does not know are passed over, as it does. A suspicion, a death
 * or a leave of a name of which no Alive was believed changes nothing. A death that names no accuser only
 * suspects. The member itself is a name like any
 * other: tell the view its own Alive first, and refute what is said of it at the next incarnation.
 *
 * If there is an event, what the view now shows of the member is copied; otherwise `member` is unchanged. It
 * may be NULL.
 *
 * SWIMTAB_DONE, also without an event; SWIMTAB_NO_NODE; SWIMTAB_WRONG_TYPE: it makes no claim, or is a
 * compound message; SWIMTAB_MEMORY; the fault at which reading stops: it is no message. Unless it is
 * SWIMTAB_DONE nothing has changed. */
swimtab_told swimtab_view_take(swimtab_view *view, uint64_t time, const void *message, size_t len,
                               swimtab_view_data *member);

/* Tells the view the next record of a push/pull stream that came at this time. Start with
 * SWIMTAB_PROGRESS_INIT, pass each later call the progress that the last call left, and call it until it
 * returns SWIMTAB_NO_ITEM: all records were told. memberlist merges a stream only if all of it came, so ask
 * swimtab_whole first, with a progress of its own. Otherwise like swimtab_view_take.
 *
 * SWIMTAB_DONE; SWIMTAB_NO_ITEM: no record is left; SWIMTAB_NO_NODE; SWIMTAB_MEMORY; the fault at which
 * reading stops. Unless it is SWIMTAB_DONE the view is unchanged. With SWIMTAB_MEMORY the call may be
 * repeated. */
swimtab_told swimtab_view_merge(swimtab_view *view, uint64_t time, swimtab_progress *progress,
                                const void *stream, size_t len, swimtab_view_data *member);

/* Forgets the members that at this time have been dead, or have left, for longer than the wait, and those in
 * the state SWIMTAB_NOTED, and returns how many these are. memberlist does it at the end of each round of its
 * probes. The view is then that of what it was told about the others. It takes no memory. */
size_t swimtab_view_forget(swimtab_view *view, uint64_t time);

/* How many members the view shows, those that died or left included; 0 if the handle is empty. */
size_t swimtab_view_count(const swimtab_view *view);

/* Copies what the view shows of the member of this name. If `member` is NULL, only the status is returned. It
 * takes memory for a copy of the name.
 *
 * SWIMTAB_DONE; SWIMTAB_NO_MEMBER: it shows no such name; SWIMTAB_NO_NODE; SWIMTAB_MEMORY. Unless it is
 * SWIMTAB_DONE `member` is unchanged. */
swimtab_status swimtab_view_find(const swimtab_view *view, const void *name, size_t name_len,
                                 swimtab_view_data *member);

/* The same for the first member whose name is above this one in byte order, as swimtab_after; a walk begins
 * with an empty name. A name of more than 1,024 bytes is SWIMTAB_NAME_TOO_LONG. */
swimtab_status swimtab_view_after(const swimtab_view *view, const void *name, size_t name_len,
                                  swimtab_view_data *member);

/* Writes the name of the member at index `i`, from 0, among those that suspect the member of this name, in
 * the order in which they were heard.
 *
 * SWIMTAB_DONE; SWIMTAB_TOO_SMALL; SWIMTAB_NO_ITEM: `i` or fewer do; SWIMTAB_NO_MEMBER; SWIMTAB_NO_NODE;
 * SWIMTAB_MEMORY. */
swimtab_written swimtab_view_accuser(const swimtab_view *view, const void *name, size_t name_len, size_t i,
                                     void *out, size_t out_len);

/* Writes what the view shows as a push/pull stream in the form SWIMTAB_MEMBERLIST, into memory of the
 * library, as swimtab_offer_new: one record a member, in its state, with its address, metadata and versions.
 * Members without sound versions are left out, and those in the state SWIMTAB_NOTED. A reply is the same
 * stream, from before the other side's stream was told. It takes memory for a table of this size.
 *
 * SWIMTAB_DONE; SWIMTAB_NO_NODE; SWIMTAB_USER_TOO_LONG; SWIMTAB_TOO_MANY_RECORDS; SWIMTAB_MEMORY. Unless it
 * is SWIMTAB_DONE the buffer is unchanged. A NULL buffer is SWIMTAB_TOO_SMALL. */
swimtab_status swimtab_view_offer(const swimtab_view *view, bool join, const void *user, size_t user_len,
                                  swimtab_buffer *buffer);

/* --------------------- agents: a whole member of a memberlist cluster, over sockets of the program */

/* Opens an agent in an empty handle: a member of a memberlist cluster, which probes, suspects and declares dead,
 * gossips, exchanges tables, refutes, joins and leaves by memberlist's state.go. It shows members as a view does. The
 * program owns the sockets and the clock: it tells the agent what came and what time it is, and does what
 * swimtab_agent_next gives. `now` and all times are microseconds, of any clock that never goes back. The caller must
 * close the agent with swimtab_agent_close. `user` of the handle stays.
 *
 * SWIMTAB_DONE; SWIMTAB_BAD_SIZE: `config` is NULL, or its size is that of no version; SWIMTAB_NODE_THERE;
 * SWIMTAB_NO_SEED: the seed is all 0, as SWIMTAB_AGENT_CONFIG_INIT leaves it; the first of SWIMTAB_NAME_EMPTY,
 * .._NAME_TOO_LONG, .._BAD_ADDRESS, .._META_TOO_LONG, .._BAD_VERSIONS, .._CIPHER_TOO_LONG: the label has more than
 * 255 bytes, .._BAD_MULTIPLIER, .._SHORT_DATAGRAMS; SWIMTAB_MEMORY. Unless it is SWIMTAB_DONE the handle is unchanged.
 * If the handle is NULL, SWIMTAB_NO_NODE. */
swimtab_status swimtab_agent_open(swimtab_agent *agent, const swimtab_agent_config *config, uint64_t now);

/* Frees the agent, and what it put out and did not give. The handle is then empty, and may be opened again. The others
 * are not told: swimtab_agent_leave comes first.
 *
 * SWIMTAB_DONE; SWIMTAB_NO_NODE: the handle was empty. */
swimtab_status swimtab_agent_close(swimtab_agent *agent);

/* Gives what the agent put out and did not give yet, one at a time, in its order; call it after each other call, until
 * it returns SWIMTAB_NO_ITEM. The bytes of a datagram, of a stream, or of another program's message or state are then
 * in `buffer`, which is empty if there are none; what it kept before is freed. A datagram is not split, and its bytes
 * are sent as they are, as those of a stream. Nothing is given twice, and nothing is lost, also if memory is refused.
 *
 * SWIMTAB_DONE; SWIMTAB_NO_ITEM; SWIMTAB_NO_NODE; SWIMTAB_MEMORY: the next call gives the same. Unless it is
 * SWIMTAB_DONE `out` and `buffer` are unchanged. If one of them is NULL, SWIMTAB_TOO_SMALL, and nothing is given. */
swimtab_status swimtab_agent_next(swimtab_agent *agent, swimtab_agent_out *out, swimtab_buffer *buffer);

/* When the agent is to be told the time by swimtab_agent_tick, if nothing comes before; UINT64_MAX if the handle is
 * empty. Each other call may change it. */
uint64_t swimtab_agent_wake(const swimtab_agent *agent);

/* Tells the agent the time. To tell it too early or too late is harmless.
 *
 * SWIMTAB_DONE; SWIMTAB_NO_NODE; SWIMTAB_MEMORY: what was due is done in part. */
swimtab_status swimtab_agent_tick(swimtab_agent *agent, uint64_t now);

/* Tells the agent that this datagram came from there, as the socket gave it. What is no message of this cluster is
 * dropped.
 *
 * SWIMTAB_DONE, also if it is dropped; SWIMTAB_NO_NODE; SWIMTAB_BAD_ADDRESS: `from` is NULL, or its address does not
 * have 4 or 16 bytes; SWIMTAB_MEMORY: the datagram is heeded in part, as if it had been lost on its way. */
swimtab_status swimtab_agent_packet(swimtab_agent *agent, uint64_t now, const swimtab_place *from, const void *bytes,
                                    size_t len);

/* Tells the agent that another member opened a TCP connection, and gives it a number by `stream`, which no other has:
 * it is odd, and those of streams that the agent dials are even. `stream` may not be NULL.
 *
 * SWIMTAB_DONE; SWIMTAB_NO_NODE; SWIMTAB_TOO_SMALL: `stream` is NULL; SWIMTAB_OUT_OF_RANGE: 2^62 were accepted;
 * SWIMTAB_MEMORY. Unless it is SWIMTAB_DONE `stream` is unchanged, and the program closes the connection. */
swimtab_status swimtab_agent_accepted(swimtab_agent *agent, uint64_t now, uint64_t *stream);

/* Tells the agent that a stream that it dialled is open now.
 *
 * SWIMTAB_DONE; SWIMTAB_NO_NODE; SWIMTAB_MEMORY: close the stream. A number that is not, or no longer, that of a stream
 * is passed over, here and in the next two calls. */
swimtab_status swimtab_agent_connected(swimtab_agent *agent, uint64_t now, uint64_t stream);

/* Tells the agent that these bytes came over the stream.
 *
 * SWIMTAB_DONE; SWIMTAB_NO_NODE; SWIMTAB_MEMORY: they are heeded in part: close the stream. */
swimtab_status swimtab_agent_received(swimtab_agent *agent, uint64_t now, uint64_t stream, const void *bytes,
                                      size_t len);

/* Tells the agent that the other side closed the stream, or that it could not be opened, or that the program closed it
 * by itself. After SWIMTAB_OUT_CLOSE it need not be told.
 *
 * SWIMTAB_DONE; SWIMTAB_NO_NODE; SWIMTAB_MEMORY. */
swimtab_status swimtab_agent_closed(swimtab_agent *agent, uint64_t now, uint64_t stream);

/* Wishes that the agent joins the cluster by the members at these places. It dials each of them, and each
 * probe_interval one of them again while no other member is alive. `places` may be NULL if `count` is 0.
 *
 * SWIMTAB_DONE; SWIMTAB_NO_NODE; SWIMTAB_BAD_ADDRESS: an address does not have 4 or 16 bytes, and nothing has changed;
 * SWIMTAB_MEMORY: not all are dialled. */
swimtab_status swimtab_agent_join(swimtab_agent *agent, uint64_t now, const swimtab_place *places, size_t count);

/* Wishes that the agent leaves the cluster. It tells so, and puts out SWIMTAB_OUT_DEPARTED when it was told as often as
 * it is to be, nobody is there to hear it, or after 5 seconds.
 *
 * SWIMTAB_DONE; SWIMTAB_NO_NODE; SWIMTAB_MEMORY: wish it again. */
swimtab_status swimtab_agent_leave(swimtab_agent *agent, uint64_t now);

/* Gives the member this metadata, which it tells at its next incarnation.
 *
 * SWIMTAB_DONE, also if it puts out SWIMTAB_OUT_EXHAUSTED; SWIMTAB_NO_NODE; SWIMTAB_META_TOO_LONG: there are more than
 * 512 bytes, and nothing has changed; SWIMTAB_MEMORY: wish it again. */
swimtab_status swimtab_agent_update(swimtab_agent *agent, uint64_t now, const void *meta, size_t len);

/* Tells this message of the program to all members, along with gossip; they get it as SWIMTAB_OUT_USER, and a program
 * over memberlist by NotifyMsg.
 *
 * SWIMTAB_DONE; SWIMTAB_NO_NODE; SWIMTAB_TOO_LONG: it fits no datagram; SWIMTAB_MEMORY. Unless it is SWIMTAB_DONE it
 * is not told. */
swimtab_status swimtab_agent_say(swimtab_agent *agent, uint64_t now, const void *bytes, size_t len);

/* Sends this state of the program along with tables from now on; others get it as SWIMTAB_OUT_USER_STATE, and a program
 * over memberlist by MergeRemoteState.
 *
 * SWIMTAB_DONE; SWIMTAB_NO_NODE; SWIMTAB_USER_TOO_LONG: there are more than 20,971,520 bytes, and nothing has changed;
 * SWIMTAB_MEMORY. */
swimtab_status swimtab_agent_state(swimtab_agent *agent, uint64_t now, const void *bytes, size_t len);

/* Gives the agent copies of these keys in place of its own, to rotate them. With NULL or an empty keyring nothing is
 * encrypted from now on.
 *
 * SWIMTAB_DONE; SWIMTAB_NO_NODE; SWIMTAB_MEMORY: its keys are unchanged. */
swimtab_status swimtab_agent_keys(swimtab_agent *agent, const swimtab_keyring *keys);

/* How many members the agent shows, itself and those that died or left included; 0 if the handle is empty. */
size_t swimtab_agent_count(const swimtab_agent *agent);

/* Copies what the agent shows of the member of this name, as swimtab_view_find. */
swimtab_status swimtab_agent_find(const swimtab_agent *agent, const void *name, size_t name_len,
                                  swimtab_view_data *member);

/* The same for the first member whose name is above this one in byte order, as swimtab_view_after; a walk begins with
 * an empty name. */
swimtab_status swimtab_agent_after(const swimtab_agent *agent, const void *name, size_t name_len,
                                   swimtab_view_data *member);

/* --------------------- statuses: the names and the meaning of statuses */

/* The name of a status, as in docs/faults.md: "Done" for 0, and "Unknown" for a number that is not in
 * it. The text is static. */
const char *swimtab_fault_name(uint32_t status);

/* What a status means, as a sentence: "The bytes end too soon." The text is static. */
const char *swimtab_fault_text(uint32_t status);

#ifdef __cplusplus
}
#endif
#endif
