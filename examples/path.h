/* The path between a desk and the exchange: a Unix socket that carries packets, a component to a packet. */
#ifndef PATH_H
#define PATH_H

#include <stddef.h>
#include <stdint.h>

/* Each answers a socket, or -1 where that failed, which is said on standard error. */
int path_listen(const char *name);
int path_accept(int listening);
int path_connect(const char *name);

/* Answers whether all was handed over. */
int path_send(int path, const void *octets, size_t count);

/* Waits for a packet and answers how many octets came, at most `most`: what is longer is cut. 0 where the other side is gone. */
size_t path_receive(int path, uint8_t *octets, size_t most);

#endif
