/* An ideal relay: one socket towards clients and one towards the origin. It gives each request a Message ID of its own,
   and each answer the client's again; it remembers nothing else. No proxy can do less.

   relay ADDRESS PORT SECONDS ORIGIN-ADDRESS ORIGIN-PORT */
#include <poll.h>

#include "common.h"

static struct {
    struct sockaddr_in client;
    uint8_t id[2];
} asked[65536];

static uint16_t next_id;

static void pass_on(int front, int back, const struct sockaddr_in *origin) {
    uint8_t data[LONGEST];
    struct sockaddr_in from;
    socklen_t length = sizeof from;
    ssize_t came = recvfrom(front, data, sizeof data, MSG_DONTWAIT, (struct sockaddr *)&from, &length);
    if (came < 4) {
        return;
    }
    next_id++;
    asked[next_id].client = from;
    memcpy(asked[next_id].id, data + 2, 2);
    data[2] = (uint8_t)(next_id >> 8);
    data[3] = (uint8_t)next_id;
    sendto(back, data, (size_t)came, 0, (const struct sockaddr *)origin, sizeof *origin);
}

static void bring_back(int front, int back) {
    uint8_t data[LONGEST];
    ssize_t came = recv(back, data, sizeof data, MSG_DONTWAIT);
    if (came < 4) {
        return;
    }
    uint16_t id = (uint16_t)(data[2] << 8 | data[3]);
    memcpy(data + 2, asked[id].id, 2);
    sendto(front, data, (size_t)came, 0, (struct sockaddr *)&asked[id].client, sizeof asked[id].client);
}

int main(int count, char **words) {
    if (count != 6) {
        return 2;
    }
    struct sockaddr_in own = address_of(words[1], words[2]), origin = address_of(words[4], words[5]);
    struct sockaddr_in any = {.sin_family = AF_INET, .sin_addr = own.sin_addr};
    int front = udp_socket(&own, 1000), back = udp_socket(&any, 1000);
    struct pollfd both[2] = {{front, POLLIN, 0}, {back, POLLIN, 0}};
    double until = now() + atof(words[3]);
    while (now() < until) {
        if (poll(both, 2, 1000) <= 0) {
            continue;
        }
        if (both[0].revents & POLLIN) {
            pass_on(front, back, &origin);
        }
        if (both[1].revents & POLLIN) {
            bring_back(front, back);
        }
    }
    return 0;
}
