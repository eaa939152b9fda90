/* Preloaded into a program (LD_PRELOAD). The file 'bound' gets the address and the port that it binds. With FIRST in
   the environment somebody else connects to that port before it does, and leaves at once. With OTHER what it sends
   about a member 'a' is about a member 'd'. */
#define _GNU_SOURCE
#include <arpa/inet.h>
#include <dlfcn.h>
#include <stdio.h>
#include <stdlib.h>
#include <string.h>
#include <sys/socket.h>
#include <unistd.h>

int bind(int socket, const struct sockaddr *address, socklen_t size) {
    int (*real)(int, const struct sockaddr *, socklen_t);
    *(void **)&real = dlsym(RTLD_NEXT, "bind");
    const struct sockaddr_in *of = (const void *)address;
    FILE *bound = fopen("bound", "w");
    if (bound) {
        fprintf(bound, "%s %d\n", inet_ntoa(of->sin_addr), ntohs(of->sin_port));
        fclose(bound);
    }
    return real(socket, address, size);
}

int connect(int own, const struct sockaddr *address, socklen_t size) {
    int (*real)(int, const struct sockaddr *, socklen_t);
    *(void **)&real = dlsym(RTLD_NEXT, "connect");
    if (getenv("FIRST")) {
        int other = socket(AF_INET, SOCK_STREAM, 0);
        real(other, address, size);
        close(other);
    }
    return real(own, address, size);
}

ssize_t send(int socket, const void *from, size_t size, int flags) {
    ssize_t (*real)(int, const void *, size_t, int);
    *(void **)&real = dlsym(RTLD_NEXT, "send");
    char sent[1000];
    if (!getenv("OTHER") || size > sizeof sent) {
        return real(socket, from, size, flags);
    }
    memcpy(sent, from, size);
    char *name = memmem(sent, size, "Name\xa1" "a", 6);
    if (name) {
        name[5] = 'd';
    }
    return real(socket, sent, size, flags);
}
