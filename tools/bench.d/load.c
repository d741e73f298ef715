/* A client that keeps some requests in flight, checks each answer, and tells how long they took.

   load ADDRESS PORT COUNT IN-FLIGHT con|non FIRST RESOURCES LEAD [echo]

   Request n asks for the resource r(FIRST + n % RESOURCES): by Uri-Path options behind those of LEAD, a path like /b/,
   or by a Proxy-Uri, if LEAD begins with coap://. An answer is right if its payload is `value of ` and the resource;
   with echo, if it is the request. Who isn't answered within a second is lost. It writes JSON.

   load ADDRESS PORT COUNT flood RATE

   It sends so many requests a second for what isn't there, from eight ports, and reads no answers. */
#include <poll.h>

#include "common.h"

enum { GET = 1, MOST = 65000 };

struct run {
    int handle, kind, is_echo;
    long count, first, resources;
    const char *lead;
    double sent_at[MOST], took[MOST];
    uint8_t state[MOST]; /* 0 not sent, 1 in flight, 2 answered, 3 lost */
    long sent, answered, wrong, lost, oldest;
};

static struct run run;

/* Makes request n, and returns its length. */
static size_t request(long n, uint8_t *out) {
    char text[600], name[32];
    long resource = run.first + n % run.resources;
    out[0] = (uint8_t)(0x40 | run.kind << 4 | 4);
    out[1] = GET;
    out[2] = (uint8_t)(n >> 8);
    out[3] = (uint8_t)n;
    uint32_t token = htonl((uint32_t)n ^ 0x5A000000u);
    memcpy(out + 4, &token, 4);
    uint8_t *end = out + 8;
    if (strncmp(run.lead, "coap://", 7) == 0) {
        int length = snprintf(text, sizeof text, "%sr%ld", run.lead, resource);
        return (size_t)(put_option(end, 35, text, (size_t)length) - out);
    }
    int delta = 11;
    for (const char *at = run.lead + 1; *at != 0; at = strchr(at, '/') + 1) {
        end = put_option(end, delta, at, (size_t)(strchr(at, '/') - at));
        delta = 0;
    }
    int length = snprintf(name, sizeof name, "r%ld", resource);
    return (size_t)(put_option(end, delta, name, (size_t)length) - out);
}

static void send_next(void) {
    uint8_t data[LONGEST];
    size_t length = request(run.sent, data);
    run.sent_at[run.sent] = now();
    run.state[run.sent] = 1;
    if (send(run.handle, data, length, 0) < 0) {
        run.sent_at[run.sent] -= 1;
    }
    run.sent++;
}

/* Whether a datagram is the right answer to request n. */
static int is_right(long n, const uint8_t *data, size_t length) {
    if (run.is_echo) {
        uint8_t own[LONGEST];
        return length == request(n, own) && memcmp(own, data, length) == 0;
    }
    char wanted[64];
    int size = snprintf(wanted, sizeof wanted, "value of r%ld", run.first + n % run.resources);
    struct part part = {0, NULL, 0};
    const uint8_t *at = data + 8;
    while ((at = next_part(at, data + length, &part)) != NULL && part.number >= 0) {
    }
    return data[1] == 0x45 && part.number < 0 && (int)part.length == size && memcmp(part.value, wanted, part.length) == 0;
}

static void take(const uint8_t *data, size_t length) {
    int kind = data[0] >> 4 & 3;
    if (length < 8 || (data[0] & 15) != 4) {
        return; /* an Empty acknowledgement: the answer comes later */
    }
    if (kind == CON && !run.is_echo) {
        uint8_t bare[4] = {0x60, 0, data[2], data[3]};
        if (send(run.handle, bare, 4, 0) < 0) {
            perror("send");
        }
    }
    uint32_t token;
    memcpy(&token, data + 4, 4);
    long n = (long)(ntohl(token) ^ 0x5A000000u);
    if (n < 0 || n >= run.sent || run.state[n] != 1) {
        return;
    }
    run.took[run.answered++] = now() - run.sent_at[n];
    run.state[n] = 2;
    run.wrong += !is_right(n, data, length);
}

static void lose_old(double at) {
    while (run.oldest < run.sent && (run.state[run.oldest] != 1 || at - run.sent_at[run.oldest] > 1)) {
        run.lost += run.state[run.oldest] == 1;
        run.state[run.oldest] = run.state[run.oldest] == 1 ? 3 : run.state[run.oldest];
        run.oldest++;
    }
}

static int compare(const void *one, const void *other) {
    double difference = *(const double *)one - *(const double *)other;
    return difference < 0 ? -1 : difference > 0;
}

static void play(long in_flight) {
    uint8_t data[LONGEST];
    double start = now();
    while (run.answered + run.lost < run.count && now() - start < 60) {
        while (run.sent < run.count && run.sent - run.answered - run.lost < in_flight) {
            send_next();
        }
        ssize_t came = recv(run.handle, data, sizeof data, 0);
        if (came >= 4) {
            take(data, (size_t)came);
        }
        lose_old(now());
    }
    double seconds = now() - start;
    qsort(run.took, (size_t)run.answered, sizeof *run.took, compare);
    long middle = run.answered / 2, late = run.answered * 99 / 100;
    printf("{\"answered\": %ld, \"wrong\": %ld, \"lost\": %ld, \"seconds\": %.6f, \"p50\": %.1f, \"p99\": %.1f}\n",
           run.answered, run.wrong, run.count - run.answered, seconds, run.answered ? run.took[middle] * 1e6 : 0,
           run.answered ? run.took[late] * 1e6 : 0);
}

/* Sends requests for what isn't there at a rate, and ends after their count. */
static int flood(const struct sockaddr_in *to, long count, double rate) {
    struct sockaddr_in any = {.sin_family = AF_INET};
    int handles[8];
    for (int place = 0; place < 8; place++) {
        handles[place] = udp_socket(&any, 1);
    }
    double start = now();
    for (long n = 0; n < count; n++) {
        uint8_t data[16] = {0x51, GET, (uint8_t)(n / 8 >> 8), (uint8_t)(n / 8), (uint8_t)n, 0xB5, 'f', 'l', 'o', 'o', 'd'};
        while (now() - start < (double)n / rate) {
            usleep(200);
        }
        sendto(handles[n % 8], data, 11, 0, (const struct sockaddr *)to, sizeof *to);
    }
    return 0;
}

int main(int count, char **words) {
    if (count < 6) {
        return 2;
    }
    struct sockaddr_in to = address_of(words[1], words[2]), any = {.sin_family = AF_INET};
    run.count = atol(words[3]);
    if (run.count > MOST) {
        return 2;
    }
    if (strcmp(words[4], "flood") == 0) {
        return flood(&to, run.count, atof(words[5]));
    }
    if (count < 9) {
        return 2;
    }
    run.kind = strcmp(words[5], "con") == 0 ? CON : NON;
    run.first = atol(words[6]);
    run.resources = atol(words[7]);
    run.lead = words[8];
    run.is_echo = count > 9;
    any.sin_addr = to.sin_addr;
    run.handle = udp_socket(&any, 20);
    int room = 4 << 20; /* what the client loses isn't what is measured */
    setsockopt(run.handle, SOL_SOCKET, SO_RCVBUF, &room, sizeof room);
    if (connect(run.handle, (struct sockaddr *)&to, sizeof to) < 0) {
        fail("connect");
    }
    play(atol(words[4]));
    return 0;
}
