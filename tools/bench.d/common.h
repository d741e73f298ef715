/* What the programs of the bench have in common: sockets, time, and the options of a message (RFC 7252, 3). */
#ifndef COMMON_H
#define COMMON_H

#include <arpa/inet.h>
#include <stdint.h>
#include <stdio.h>
#include <stdlib.h>
#include <string.h>
#include <sys/socket.h>
#include <time.h>
#include <unistd.h>

enum { CON = 0, NON = 1, ACK = 2, RST = 3, LONGEST = 2048 };

static inline void fail(const char *what) {
    perror(what);
    exit(1);
}

static inline struct sockaddr_in address_of(const char *host, const char *port) {
    struct sockaddr_in address = {.sin_family = AF_INET, .sin_port = htons((uint16_t)atoi(port))};
    if (inet_pton(AF_INET, host, &address.sin_addr) != 1) {
        fprintf(stderr, "%s isn't an IPv4 address\n", host);
        exit(2);
    }
    return address;
}

/* A UDP socket at this address that waits at most some milliseconds for a datagram. */
static inline int udp_socket(const struct sockaddr_in *address, int milliseconds) {
    int handle = socket(AF_INET, SOCK_DGRAM, 0);
    struct timeval wait = {milliseconds / 1000, milliseconds % 1000 * 1000};
    if (handle < 0 || bind(handle, (const struct sockaddr *)address, sizeof *address) < 0) {
        fail("socket");
    }
    setsockopt(handle, SOL_SOCKET, SO_RCVTIMEO, &wait, sizeof wait);
    return handle;
}

static inline double now(void) {
    struct timespec it;
    clock_gettime(CLOCK_MONOTONIC, &it);
    return (double)it.tv_sec + (double)it.tv_nsec / 1e9;
}

/* Writes an option whose delta and length are below 269, and returns what follows it. */
static inline uint8_t *put_option(uint8_t *out, int delta, const void *value, size_t length) {
    uint8_t *head = out++;
    *head = (uint8_t)((delta < 13 ? delta : 13) << 4 | (length < 13 ? (int)length : 13));
    if (delta >= 13) {
        *out++ = (uint8_t)(delta - 13);
    }
    if (length >= 13) {
        *out++ = (uint8_t)(length - 13);
    }
    memcpy(out, value, length);
    return out + length;
}

/* An option of a message, or the payload, whose number is -1. */
struct part {
    int number;
    const uint8_t *value;
    size_t length;
};

/* Reads the part that begins at a place, and returns the place behind it, or NULL where the message ends or is broken.
   Deltas and lengths of 269 or more don't occur here. */
static inline const uint8_t *next_part(const uint8_t *at, const uint8_t *end, struct part *part) {
    if (at >= end) {
        return NULL;
    }
    if (*at == 0xFF) {
        *part = (struct part){-1, at + 1, (size_t)(end - at - 1)};
        return end;
    }
    int delta = *at >> 4, length = *at & 15;
    at++;
    if (delta > 13 || length > 13 || end - at < (delta == 13) + (length == 13)) {
        return NULL;
    }
    delta = delta == 13 ? *at++ + 13 : delta;
    length = length == 13 ? *at++ + 13 : length;
    if (end - at < length) {
        return NULL;
    }
    *part = (struct part){part->number + delta, at, (size_t)length};
    return at + length;
}

#endif
