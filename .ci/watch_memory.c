/* Preloaded into a test (LD_PRELOAD). Refuses the allocation whose number, from 1, is in REFUSE, and then
   creates the file that REFUSED names. At the end it writes to the file that COUNTED names: the most bytes
   that one allocation asked for; how many allocations were not freed; the most bytes that were held at
   once, as they were asked for, with a block that grows counted once; and how many freed blocks held
   eight consecutive bytes of a secret. SECRETS has the secrets in hexadecimal, separated by commas. If
   there are secrets, a block that grows always moves, so that the old block is searched too. */
#define _GNU_SOURCE
#include <dlfcn.h>
#include <fcntl.h>
#include <stddef.h>
#include <stdint.h>
#include <stdio.h>
#include <stdlib.h>
#include <string.h>
#include <unistd.h>

static void *(*real_malloc)(size_t);
static void *(*real_realloc)(void *, size_t);
static void (*real_free)(void *);
static long left = -1;
static size_t greatest;
static long held;
static size_t bytes_held;
static size_t peak;
static long exposed;

/* ---- the blocks that are held, and how many bytes of each were asked for */

#define PLACES (1ul << 20)

static struct {
    void *block;
    size_t size;
} blocks[PLACES];
static size_t known;

/* The place of the block, or the free place for it. */
static size_t place_of(void *block) {
    size_t at = ((uintptr_t)block >> 4) * 0x9e3779b97f4a7c15ul % PLACES;
    while (blocks[at].block && blocks[at].block != block) {
        at = (at + 1) % PLACES;
    }
    return at;
}

static void add(void *block, size_t size) {
    if (++known > PLACES / 2) {
        _exit(127);
    }
    size_t at = place_of(block);
    blocks[at].block = block;
    blocks[at].size = size;
    bytes_held += size;
    if (bytes_held > peak) {
        peak = bytes_held;
    }
}

/* How many bytes were asked for: 0 if the block came from elsewhere. */
static size_t size_of(void *block) {
    size_t at = place_of(block);
    return blocks[at].block ? blocks[at].size : 0;
}

static void take(void *block) {
    size_t at = place_of(block);
    if (!blocks[at].block) {
        return;
    }
    known--;
    bytes_held -= blocks[at].size;
    blocks[at].block = NULL;
    /* move the blocks after it that this one displaced */
    for (size_t next = (at + 1) % PLACES; blocks[next].block; next = (next + 1) % PLACES) {
        void *moved = blocks[next].block;
        size_t size = blocks[next].size;
        blocks[next].block = NULL;
        size_t to = place_of(moved);
        blocks[to].block = moved;
        blocks[to].size = size;
    }
}

/* ---- secrets */

#define PART 8

static unsigned char secrets[4096];
static size_t secret_ends[64];
static int secret_count = -1;

static int digit(char c) {
    return c >= '0' && c <= '9' ? c - '0' : c >= 'a' && c <= 'f' ? c - 'a' + 10 : -1;
}

static void read_secrets(void) {
    const char *text = getenv("SECRETS");
    size_t end = 0;
    secret_count = 0;
    while (text && *text) {
        if (digit(text[0]) >= 0 && digit(text[1]) >= 0 && end < sizeof secrets) {
            secrets[end++] = digit(text[0]) << 4 | digit(text[1]);
            text += 2;
        } else if (*text == ',' && text[1]) {
            secret_ends[secret_count++] = end;
            text++;
        } else {
            _exit(127);
        }
        if (secret_count == 63) {
            _exit(127);
        }
    }
    if (end > 0) {
        secret_ends[secret_count++] = end;
    }
}

static int has_secrets(void) {
    if (secret_count < 0) {
        read_secrets();
    }
    return secret_count > 0;
}

/* Counts the block if it holds a part of a secret. */
static void look_at(const unsigned char *block, size_t size) {
    size_t start = 0;
    for (int i = 0; i < secret_count; i++) {
        for (size_t at = start; at + PART <= secret_ends[i]; at++) {
            if (memmem(block, size, secrets + at, PART)) {
                exposed++;
                return;
            }
        }
        start = secret_ends[i];
    }
}

/* ---- what a test calls */

static int refuses(size_t size) {
    if (size > greatest) {
        greatest = size;
    }
    if (left < 0) {
        const char *text = getenv("REFUSE");
        left = text ? strtol(text, NULL, 10) : 0;
    }
    if (left == 0 || --left != 0) {
        return 0;
    }
    const char *path = getenv("REFUSED");
    if (path) {
        close(open(path, O_CREAT | O_WRONLY, 0600));
    }
    return 1;
}

void *malloc(size_t size) {
    if (!real_malloc) {
        *(void **)&real_malloc = dlsym(RTLD_NEXT, "malloc");
    }
    void *made = refuses(size) ? NULL : real_malloc(size);
    if (made) {
        held++;
        add(made, size);
    }
    return made;
}

void free(void *old) {
    if (!real_free) {
        *(void **)&real_free = dlsym(RTLD_NEXT, "free");
    }
    if (old) {
        held--;
        if (has_secrets()) {
            look_at(old, size_of(old));
        }
        take(old);
    }
    real_free(old);
}

void *realloc(void *old, size_t size) {
    if (!real_realloc) {
        *(void **)&real_realloc = dlsym(RTLD_NEXT, "realloc");
    }
    if (!old) {
        return malloc(size);
    }
    if (refuses(size)) {
        return NULL;
    }
    size_t before = size_of(old);
    if (!has_secrets() || before == 0) {
        void *made = real_realloc(old, size);
        if (made) {
            take(old);
            add(made, size);
        }
        return made;
    }
    void *made = real_malloc(size);
    if (made) {
        memcpy(made, old, before < size ? before : size);
        held++;
        free(old);
        add(made, size);
    }
    return made;
}

__attribute__((destructor)) static void tell(void) {
    const char *path = getenv("COUNTED");
    int to = path ? open(path, O_CREAT | O_WRONLY | O_TRUNC, 0600) : -1;
    if (to >= 0) {
        char text[128];
        int length = snprintf(text, sizeof text, "%zu %ld %zu %ld\n", greatest, held, peak, exposed);
        if (write(to, text, length) != length) {
            _exit(127);
        }
        close(to);
    }
}
