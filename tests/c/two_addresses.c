/* Gives the name two.test two addresses, of which the first accepts no connection: 127.0.0.2, and then 127.0.0.1. */
#define _GNU_SOURCE
#include <dlfcn.h>
#include <netdb.h>
#include <string.h>

typedef int lookup(const char *, const char *, const struct addrinfo *, struct addrinfo **);

int getaddrinfo(const char *name, const char *service, const struct addrinfo *hints, struct addrinfo **found) {
    lookup *real = (lookup *)dlsym(RTLD_NEXT, "getaddrinfo");
    struct addrinfo *last;
    int status;
    if (!name || strcmp(name, "two.test")) return real(name, service, hints, found);
    status = real("127.0.0.2", service, hints, found);
    if (status) return status;
    for (last = *found; last->ai_next; last = last->ai_next);
    return real("127.0.0.1", service, hints, &last->ai_next);
}
