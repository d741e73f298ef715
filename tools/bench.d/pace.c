/* Clients that send requests at a rate, whether or not they are answered, and tell how many were answered in time.

   pace ADDRESS PORT RATE SECONDS CLIENTS con|non RESOURCES LEAD

   Request n is of client n % CLIENTS, each of which has a port of its own, and asks for the resource r(n % RESOURCES) by
   a Proxy-Uri that begins with LEAD. It counts as answered if the right answer, `value of ` and the resource, comes
   within a second; none is sent again. A 2.05 with anything else is wrong, another code a refusal. It writes JSON. */
#include <sys/epoll.h>

#include "common.h"

enum { GET = 1, MOST_CLIENTS = 1024, RING = 1 << 18, AT_ONCE = 64 };

static struct {
    int handles[MOST_CLIENTS], poll, kind;
    long clients, resources;
    const char *lead;
    double sent_at[RING]; /* of request n in place n % RING, or 0 once it is answered */
    long sent, answered, refused, wrong;
} run;

static void send_next(void) {
    uint8_t data[LONGEST];
    char text[600];
    long n = run.sent++, id = n / run.clients;
    data[0] = (uint8_t)(0x40 | run.kind << 4 | 4);
    data[1] = GET;
    data[2] = (uint8_t)(id >> 8);
    data[3] = (uint8_t)id;
    uint32_t token = htonl((uint32_t)n);
    memcpy(data + 4, &token, 4);
    int length = snprintf(text, sizeof text, "%sr%ld", run.lead, n % run.resources);
    uint8_t *end = put_option(data + 8, 35, text, (size_t)length);
    run.sent_at[n % RING] = now();
    if (send(run.handles[n % run.clients], data, (size_t)(end - data), 0) < 0) {
        run.sent_at[n % RING] = 0; /* it counts as sent, and as lost */
    }
}

/* Whether a 2.05 is the right answer to request n. */
static int is_right(long n, const uint8_t *data, size_t length) {
    char wanted[64];
    int size = snprintf(wanted, sizeof wanted, "value of r%ld", n % run.resources);
    struct part part = {0, NULL, 0};
    const uint8_t *at = data + 8;
    while ((at = next_part(at, data + length, &part)) != NULL && part.number >= 0) {
    }
    return part.number < 0 && (int)part.length == size && memcmp(part.value, wanted, part.length) == 0;
}

static void take(int handle, const uint8_t *data, size_t length) {
    if (length < 8 || (data[0] & 15) != 4) {
        return; /* an Empty acknowledgement: the answer comes later */
    }
    if ((data[0] >> 4 & 3) == CON) {
        uint8_t bare[4] = {0x60, 0, data[2], data[3]};
        if (send(handle, bare, 4, 0) < 0) {
            perror("send");
        }
    }
    uint32_t token;
    memcpy(&token, data + 4, 4);
    long n = (long)ntohl(token);
    if (n >= run.sent || n < run.sent - RING || run.sent_at[n % RING] == 0) {
        return;
    }
    int is_late = now() - run.sent_at[n % RING] > 1, is_content = data[1] == 0x45;
    int right = is_content && is_right(n, data, length);
    run.sent_at[n % RING] = 0;
    run.answered += !is_late && right;
    run.refused += !is_content;
    run.wrong += is_content && !right;
}

/* Takes all that came, and waits for the first of it at most some milliseconds. */
static void receive(int milliseconds) {
    struct epoll_event ready[AT_ONCE];
    uint8_t data[LONGEST];
    int count = epoll_wait(run.poll, ready, AT_ONCE, milliseconds);
    for (int place = 0; place < count; place++) {
        int handle = ready[place].data.fd;
        ssize_t came;
        while ((came = recv(handle, data, sizeof data, MSG_DONTWAIT)) >= 4) {
            take(handle, data, (size_t)came);
        }
    }
}

static void open_clients(const struct sockaddr_in *to) {
    struct sockaddr_in any = {.sin_family = AF_INET, .sin_addr = to->sin_addr};
    run.poll = epoll_create1(0);
    for (long place = 0; place < run.clients; place++) {
        int handle = run.handles[place] = udp_socket(&any, 20);
        struct epoll_event event = {.events = EPOLLIN, .data = {.fd = handle}};
        if (connect(handle, (const struct sockaddr *)to, sizeof *to) < 0 ||
            epoll_ctl(run.poll, EPOLL_CTL_ADD, handle, &event) < 0) {
            fail("connect");
        }
    }
}

int main(int count, char **words) {
    if (count != 9) {
        return 2;
    }
    struct sockaddr_in to = address_of(words[1], words[2]);
    double rate = atof(words[3]), seconds = atof(words[4]);
    run.clients = atol(words[5]);
    run.kind = strcmp(words[6], "con") == 0 ? CON : NON;
    run.resources = atol(words[7]);
    run.lead = words[8];
    if (run.clients < 1 || run.clients > MOST_CLIENTS || run.resources < 1 || rate <= 0) {
        return 2;
    }
    open_clients(&to);
    long wanted = (long)(rate * seconds);
    double start = now(), last = start;
    while (run.sent < wanted || now() - last < 1) {
        while (run.sent < wanted && now() - start >= (double)run.sent / rate) {
            send_next();
            last = now();
            receive(0);
        }
        double left = ((double)run.sent / rate - (now() - start)) * 1000;
        receive(run.sent >= wanted || left > 50 ? 50 : left < 1 ? 1 : (int)left);
    }
    printf("{\"sent\": %ld, \"answered\": %ld, \"refused\": %ld, \"wrong\": %ld, \"seconds\": %.3f}\n", run.sent,
           run.answered, run.refused, run.wrong, last - start);
    return 0;
}
