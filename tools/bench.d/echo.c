/* Sends each datagram back: what any server at this host must cost at least.

   echo ADDRESS PORT SECONDS */
#include "common.h"

int main(int count, char **words) {
    if (count != 4) {
        return 2;
    }
    struct sockaddr_in own = address_of(words[1], words[2]), from;
    int handle = udp_socket(&own, 1000);
    double until = now() + atof(words[3]);
    uint8_t data[LONGEST];
    while (now() < until) {
        socklen_t length = sizeof from;
        ssize_t came = recvfrom(handle, data, sizeof data, 0, (struct sockaddr *)&from, &length);
        if (came >= 0) {
            sendto(handle, data, (size_t)came, 0, (struct sockaddr *)&from, length);
        }
    }
    return 0;
}
