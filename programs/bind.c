/* Writes each address of IPv4 that a program binds to the file of SEEN, and a line for each time that it sends something; and where STRANGER is set, has a
   stranger connect before the program does. */
#define _GNU_SOURCE
#include <arpa/inet.h>
#include <dlfcn.h>
#include <stdio.h>
#include <stdlib.h>
#include <sys/socket.h>
#include <unistd.h>

static void say(const char *line) {
    FILE *seen = fopen(getenv("SEEN"), "a");
    fprintf(seen, "%s\n", line);
    fclose(seen);
}

int bind(int fd, const struct sockaddr *at, socklen_t length) {
    int (*real)(int, const struct sockaddr *, socklen_t) = dlsym(RTLD_NEXT, "bind");
    say(inet_ntoa(((const struct sockaddr_in *)at)->sin_addr));
    return real(fd, at, length);
}

int connect(int fd, const struct sockaddr *to, socklen_t length) {
    int (*real)(int, const struct sockaddr *, socklen_t) = dlsym(RTLD_NEXT, "connect");
    if (getenv("STRANGER"))
        real(socket(AF_INET, SOCK_STREAM, 0), to, length);
    return real(fd, to, length);
}

ssize_t send(int fd, const void *bytes, size_t length, int flags) {
    ssize_t (*real)(int, const void *, size_t, int) = dlsym(RTLD_NEXT, "send");
    say("sent");
    return real(fd, bytes, length, flags);
}

ssize_t write(int fd, const void *bytes, size_t length) {
    ssize_t (*real)(int, const void *, size_t) = dlsym(RTLD_NEXT, "write");
    int type;
    socklen_t room = sizeof type;
    if (getsockopt(fd, SOL_SOCKET, SO_TYPE, &type, &room) == 0)
        say("sent");
    return real(fd, bytes, length);
}
