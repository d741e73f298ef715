// Calls each shim, with what is at and beyond the ends of its ranges, and prints what it answers, so that those of the
// kit and those of shims.c can be compared by their lines. It is started with the words of check-shims.

#include <fcntl.h>
#include <stdbool.h>
#include <stddef.h>
#include <stdint.h>
#include <stdio.h>
#include <string.h>
#include <sys/epoll.h>
#include <sys/socket.h>
#include <unistd.h>

struct block {
    bool is_there;
    void *address;
};

struct entry {
    uint32_t events;
    uint64_t data;
};

struct block rattle_alloc(size_t, size_t);
struct block rattle_realloc(void *, size_t, size_t, size_t);
void rattle_dealloc(void *);
int32_t rattle_errno(void);
void rattle_set_errno(int32_t);
size_t rattle_arg_count(void);
intptr_t rattle_arg(size_t, uint8_t *, size_t);
int32_t rattle_set_nonblocking(int32_t, bool);
int32_t rattle_epoll_ctl(int32_t, int32_t, int32_t, uint32_t, uint64_t);
intptr_t rattle_epoll_wait(int32_t, struct entry *, size_t, int32_t);

static const size_t too_much = (size_t)1 << 62;

// Each word, one that isn't there, and the last number that there is, with room for none and for more of its bytes.
static void say_words(void) {
    uint8_t buffer[64];
    size_t count = rattle_arg_count();
    printf("words %zu\n", count - 1);
    for (size_t at = 1; at < count + 2; at++)
        for (size_t room = 0; room < 9; room += 2) {
            memset(buffer, '.', sizeof buffer);
            ptrdiff_t answer = rattle_arg(at, buffer, room);
            printf("word %zu in %zu: %td %.12s\n", at, room, answer, (char *)buffer);
        }
    printf("no word: %td\n", (ptrdiff_t)rattle_arg(SIZE_MAX, buffer, sizeof buffer));
}

static void say_faults(void) {
    for (int32_t number = -1; number < 3; number++) {
        rattle_set_errno(number);
        printf("errno %d\n", rattle_errno());
    }
}

// Writes all bytes of a block, and says how it is.
static void say_block(const char *what, struct block block, size_t size) {
    if (block.is_there) memset(block.address, 0xA5, size);
    int fault = block.is_there ? 0 : rattle_errno();
    bool is_aligned = (uintptr_t)block.address % 16 == 0 || !block.is_there;
    printf("%s: there %d, null %d, aligned %d, errno %d\n", what, block.is_there, block.address == NULL, is_aligned, fault);
}

// A block of this size, beside another, that is made longer and longer, and then empty.
static void say_blocks(size_t size, size_t alignment) {
    struct block block = rattle_alloc(size, alignment), other = rattle_alloc(size, alignment);
    say_block("alloc", block, size);
    printf("apart %d\n", block.address != other.address);
    for (size_t next = 0; next < 5000; next = next * 3 + 7) {
        block = rattle_realloc(block.address, size < next ? size : next, next, alignment);
        bool is_kept = next == 0 || size == 0 || *(uint8_t *)block.address == 0xA5;
        printf("realloc: there %d, kept %d\n", block.is_there, is_kept);
        if (block.is_there) memset(block.address, 0xA5, next);
    }
    say_block("realloc to none", rattle_realloc(block.address, 0, 0, alignment), 0);
    rattle_dealloc(other.address);
}

static void say_memory(void) {
    for (size_t size = 0; size < 70; size += 23)
        for (size_t alignment = 1; alignment <= 16; alignment *= 2) say_blocks(size, alignment);
    say_block("too much", rattle_alloc(too_much, 8), 0);
    struct block kept = rattle_alloc(5, 1);
    memcpy(kept.address, "kept", 5);
    say_block("too much again", rattle_realloc(kept.address, 5, too_much, 1), 0);
    printf("%s\n", (char *)kept.address);
    rattle_dealloc(kept.address);
}

static void say_nonblocking(int descriptor) {
    for (int on = 1; on >= 0; on--) {
        int32_t answer = rattle_set_nonblocking(descriptor, on);
        printf("nonblocking %d %d\n", answer, (fcntl(descriptor, F_GETFL) & O_NONBLOCK) != 0);
    }
    int32_t answer = rattle_set_nonblocking(-1, true);
    printf("nonblocking %d %d\n", answer, rattle_errno());
}

// What a wait with this much room gives where two descriptors are ready. Their order isn't said.
static void say_wait(int epoll, size_t room) {
    struct entry entries[5];
    memset(entries, 0, sizeof entries);
    ptrdiff_t count = rattle_epoll_wait(epoll, entries, room, 0);
    printf("wait in %zu: %td, %d", room, count, count < 0 ? rattle_errno() : 0);
    uint64_t sum = 0;
    for (ptrdiff_t at = 0; at < count; at++) sum ^= entries[at].data * (entries[at].events + 1);
    if (count == 2) printf(" %llx", (unsigned long long)sum);
    printf(" %d\n", count < 5 && count >= 0 && entries[count + 2].events == 0);
}

static void say_epoll(int ends[2][2]) {
    int epoll = epoll_create1(EPOLL_CLOEXEC), here = ends[0][0], there = ends[1][0];
    int32_t first = rattle_epoll_ctl(epoll, EPOLL_CTL_ADD, here, EPOLLIN, 0x1122334455667788);
    int32_t second = rattle_epoll_ctl(epoll, EPOLL_CTL_ADD, there, EPOLLIN | EPOLLOUT, UINT64_MAX);
    printf("add %d %d\n", first, second);
    int32_t again = rattle_epoll_ctl(epoll, EPOLL_CTL_ADD, here, EPOLLIN, 0);
    printf("add again %d %d\n", again, rattle_errno());
    if (write(ends[0][1], "a", 1) != 1 || write(ends[1][1], "b", 1) != 1) return;
    for (size_t room = 0; room < 4; room++) say_wait(epoll, room);
    int32_t changed = rattle_epoll_ctl(epoll, EPOLL_CTL_MOD, there, EPOLLOUT, 7);
    int32_t removed = rattle_epoll_ctl(epoll, EPOLL_CTL_DEL, here, 0, 0);
    printf("change %d, remove %d\n", changed, removed);
    struct entry entries[2];
    ptrdiff_t count = rattle_epoll_wait(epoll, entries, 2, -1);
    printf("wait %td %x %llx\n", count, entries[0].events, (unsigned long long)entries[0].data);
    count = rattle_epoll_wait(-1, entries, 2, 0);
    printf("no epoll %td %d\n", count, rattle_errno());
    close(epoll);
}

int main(void) {
    int ends[2][2];
    for (int at = 0; at < 2; at++)
        if (socketpair(AF_UNIX, SOCK_DGRAM, 0, ends[at]) != 0) return 1;
    say_words();
    say_faults();
    say_memory();
    say_nonblocking(ends[0][0]);
    say_epoll(ends);
    return 0;
}
