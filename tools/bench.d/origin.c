/* An origin server: to each request it answers 2.05 with a Max-Age and a payload that its last segment makes, in the
   acknowledgement of a Confirmable one, or else in a Non-confirmable message with the same Message ID.

   origin ADDRESS PORT SECONDS MAX-AGE */
#include "common.h"

/* Makes the response to a request, and returns its length, or 0 for what isn't a request. */
static size_t answer(const uint8_t *data, size_t length, int age, uint8_t *out) {
    if (length < 4 || data[0] >> 6 != 1 || data[1] < 1 || data[1] > 31 || length < 4u + (data[0] & 15)) {
        return 0;
    }
    size_t token = data[0] & 15;
    struct part part = {0, NULL, 0}, last = {0, (const uint8_t *)"", 0};
    const uint8_t *at = data + 4 + token;
    while ((at = next_part(at, data + length, &part)) != NULL && part.number >= 0) {
        last = part.number <= 35 ? part : last;
    }
    for (size_t place = 0; place < last.length; place++) {
        if (last.value[place] == '/') {
            last = (struct part){last.number, last.value + place + 1, last.length - place - 1};
            place = (size_t)-1;
        }
    }
    memcpy(out, data, 4 + token);
    out[0] = (uint8_t)(0x40 | ((data[0] >> 4 & 3) == CON ? ACK : NON) << 4 | token);
    out[1] = 0x45;
    uint8_t seconds[2] = {(uint8_t)(age >> 8), (uint8_t)age};
    uint8_t *end = put_option(out + 4 + token, 14, age > 255 ? seconds : seconds + 1, age > 255 ? 2 : 1);
    *end++ = 0xFF;
    memcpy(end, "value of ", 9);
    memcpy(end + 9, last.value, last.length);
    return (size_t)(end + 9 + last.length - out);
}

int main(int count, char **words) {
    if (count != 5) {
        return 2;
    }
    struct sockaddr_in own = address_of(words[1], words[2]), from;
    int handle = udp_socket(&own, 1000);
    double until = now() + atof(words[3]);
    uint8_t data[LONGEST], out[2 * LONGEST];
    while (now() < until) {
        socklen_t length = sizeof from;
        ssize_t came = recvfrom(handle, data, sizeof data, 0, (struct sockaddr *)&from, &length);
        size_t made = came > 0 ? answer(data, (size_t)came, atoi(words[4]), out) : 0;
        if (made > 0) {
            sendto(handle, out, made, 0, (struct sockaddr *)&from, length);
        }
    }
    return 0;
}
