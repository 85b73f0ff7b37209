/* Packets over a Unix socket. */
#define _POSIX_C_SOURCE 200809L
#include "path.h"
#include <stdio.h>
#include <string.h>
#include <sys/socket.h>
#include <sys/un.h>
#include <unistd.h>

static int failed(const char *what)
{
    perror(what);
    return -1;
}

static int address_of(const char *name, struct sockaddr_un *address)
{
    memset(address, 0, sizeof *address);
    address->sun_family = AF_UNIX;
    if (strlen(name) >= sizeof address->sun_path) {
        fprintf(stderr, "%s: too long for the name of a socket\n", name);
        return 0;
    }
    memcpy(address->sun_path, name, strlen(name));
    return 1;
}

/* A socket, and the address of that name; -1 where one of them cannot be had. */
static int socket_for(const char *name, struct sockaddr_un *address)
{
    if (!address_of(name, address))
        return -1;
    int path = socket(AF_UNIX, SOCK_SEQPACKET, 0);
    return path < 0 ? failed("socket") : path;
}

int path_listen(const char *name)
{
    struct sockaddr_un address;
    int listening = socket_for(name, &address);
    if (listening < 0)
        return -1;
    unlink(name); /* an exchange that was killed left its own there */
    if (bind(listening, (const struct sockaddr *)&address, sizeof address) == 0 && listen(listening, 8) == 0)
        return listening;
    failed(name);
    close(listening);
    return -1;
}

int path_accept(int listening)
{
    int path = accept(listening, NULL, NULL);
    return path < 0 ? failed("accept") : path;
}

int path_connect(const char *name)
{
    struct sockaddr_un address;
    int path = socket_for(name, &address);
    if (path < 0 || connect(path, (const struct sockaddr *)&address, sizeof address) == 0)
        return path;
    failed(name);
    close(path);
    return -1;
}

int path_send(int path, const void *octets, size_t count)
{
    return send(path, octets, count, MSG_NOSIGNAL) == (ssize_t)count;
}

size_t path_receive(int path, uint8_t *octets, size_t most)
{
    ssize_t count = recv(path, octets, most, 0);
    return count < 0 ? 0 : (size_t)count;
}
