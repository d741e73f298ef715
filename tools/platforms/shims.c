// The ten C functions of the kit's libraries `libc` and `os` that coap-proxyd calls, for other processors than x86-64 and
// for musl: the kit has them for x86-64 and glibc alone. Each says which call of the kit it stands for, has the parameters
// and the result of its declaration there (rattle/libc/src/heap.rt and rattle/os/src/c.rt in the kit), and does what its
// contract says. Nothing proves that: these are trusted as the kit's own are. check-shims calls each, and compares what
// it answers with what the kit's answer.
//
// A slice is passed as its first byte and its length, a reference as a pointer; what has no bytes isn't passed.

#define _GNU_SOURCE
#include <errno.h>
#include <stdbool.h>
#include <stddef.h>
#include <stdint.h>
#include <stdlib.h>
#include <string.h>
#include <sys/epoll.h>
#include <sys/ioctl.h>

_Static_assert(sizeof(size_t) == 8, "a usize has 64 bits in each proof");
_Static_assert(_Alignof(max_align_t) >= 16, "malloc aligns as rattle_alloc must");

// What a request for memory answers. Where there is none, the address is that of a byte which belongs to nobody.
struct block {
    bool is_there;
    void *address;
};

static char nobodys;

static struct block block_at(void *address) {
    return (struct block){.is_there = address != NULL, .address = address != NULL ? address : &nobodys};
}

// libc::heap::rattle_alloc: a block of its own of so many bytes, at a multiple of an alignment that divides 16. One of no
// bytes has an address of its own, too, so it is asked for with as many bytes as the alignment.
struct block rattle_alloc(size_t size, size_t alignment) {
    return block_at(malloc(size != 0 ? size : alignment));
}

// libc::heap::rattle_realloc: a block of another size that begins with the bytes of this one, which is then given back.
// Without memory for it this one stays as it is. malloc knows itself how many bytes there were.
struct block rattle_realloc(void *address, size_t kept, size_t size, size_t alignment) {
    (void)kept;
    return block_at(realloc(address, size != 0 ? size : alignment));
}

// libc::heap::rattle_dealloc: gives a block back.
void rattle_dealloc(void *address) {
    free(address);
}

// os::c::rattle_errno: the number of the last fault of a call of the C library.
int32_t rattle_errno(void) {
    return errno;
}

// os::c::rattle_set_errno: sets that number.
void rattle_set_errno(int32_t number) {
    errno = number;
}

// The words that the program was started with. musl tells them to `main` alone, so the linker's --wrap=main has this run
// in its place.
static size_t word_count;
static char **words;

int __real_main(int count, char **given, char **environment);

int __wrap_main(int count, char **given, char **environment) {
    word_count = (size_t)count;
    words = given;
    return __real_main(count, given, environment);
}

// os::c::rattle_arg_count: how many there are, with the name of the program.
size_t rattle_arg_count(void) {
    return word_count;
}

// os::c::rattle_arg: puts one into a buffer, without the zero at its end. Returns its length, -1 if there is none, or -2
// if the buffer is too short: that then has its beginning.
intptr_t rattle_arg(size_t at, uint8_t *buffer, size_t length) {
    if (at >= word_count) return -1;
    size_t copied = 0;
    for (; words[at][copied] != 0; copied++) {
        if (copied == length) return -2;
        buffer[copied] = (uint8_t)words[at][copied];
    }
    return (intptr_t)copied;
}

// os::c::rattle_set_nonblocking: has calls on a descriptor wait, or not. Returns 0, or -1 with the fault in errno.
int32_t rattle_set_nonblocking(int32_t descriptor, bool on) {
    int value = on;
    return ioctl(descriptor, FIONBIO, &value);
}

// os::c::rattle_epoll_ctl: adds a descriptor to those that are waited for, changes or removes it. Returns 0, or -1 with
// the fault in errno.
int32_t rattle_epoll_ctl(int32_t epoll, int32_t operation, int32_t descriptor, uint32_t events, uint64_t data) {
    struct epoll_event entry = {.events = events, .data.u64 = data};
    return epoll_ctl(epoll, operation, descriptor, &entry);
}

// An entry as Rattle lays it out. The system's has no gap on x86-64, and is then shorter.
struct entry {
    uint32_t events;
    uint64_t data;
};

_Static_assert(sizeof(struct epoll_event) <= sizeof(struct entry), "the system's entries fit");

// os::c::rattle_epoll_wait: waits for descriptors for so many milliseconds, or without end at -1. Returns how many entries
// it wrote, at most as many as there is room for, or -1 with the fault in errno.
intptr_t rattle_epoll_wait(int32_t epoll, struct entry *entries, size_t length, int32_t timeout) {
    const size_t most = 1 << 24;
    int count = epoll_wait(epoll, (struct epoll_event *)entries, (int)(length < most ? length : most), timeout);
    // The last one first: each goes to where it is or behind that, and those before it stay as they are.
    for (int at = count - 1; at >= 0; at--) {
        struct epoll_event came;
        memcpy(&came, (char *)entries + (size_t)at * sizeof came, sizeof came);
        entries[at] = (struct entry){.events = came.events, .data = came.data.u64};
    }
    return count;
}
