/* Preloaded into a program (LD_PRELOAD): each read from a socket waits a second and returns one byte, as
   if the peer sent little by little. */
#include <dlfcn.h>
#include <stddef.h>
#include <sys/types.h>
#include <unistd.h>

ssize_t recv(int socket, void *to, size_t size, int flags) {
    static ssize_t (*real_recv)(int, void *, size_t, int);
    if (!real_recv) {
        *(void **)&real_recv = dlsym(RTLD_NEXT, "recv");
    }
    sleep(1);
    return real_recv(socket, to, size < 1 ? size : 1, flags);
}
