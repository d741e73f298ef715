/*
 * Refuses what the program whose path is DENIED sends, if it is a message with a token of two bytes, of which the first is
 * 0xFA: with the error whose number is the second. It is loaded before the C library (LD_PRELOAD), or linked into a static
 * program, with LINKED_IN defined and the linker's --wrap=sendto.
 */
#include <errno.h>
#include <limits.h>
#include <stdlib.h>
#include <string.h>
#include <sys/socket.h>
#include <sys/syscall.h>
#include <unistd.h>

#ifdef LINKED_IN
#define DENYING(name) __wrap_##name
#else
#define DENYING(name) name
#endif

static const unsigned char MARK = 0xFA;
static int denies;

__attribute__((constructor)) static void know_program(void)
{
    const char *program = getenv("DENIED");
    char own[PATH_MAX] = "";
    denies = program != NULL && readlink("/proc/self/exe", own, sizeof own - 1) > 0 && !strcmp(own, program);
}

ssize_t DENYING(sendto)(int socket, const void *bytes, size_t length, int flags, const struct sockaddr *to, socklen_t size)
{
    const unsigned char *message = bytes;
    if (denies && length >= 6 && (message[0] & 15) == 2 && message[4] == MARK) {
        errno = message[5];
        return -1;
    }
    return syscall(SYS_sendto, socket, bytes, length, flags, to, size);
}
