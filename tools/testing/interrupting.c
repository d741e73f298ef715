/*
 * Has each second write to a file, but to no standard stream, of the program whose path is INTERRUPTED be as if a signal had
 * come before anything was written. It is loaded before the C library (LD_PRELOAD), or linked into a static program, with
 * LINKED_IN defined and the linker's --wrap=write.
 */
#include <errno.h>
#include <limits.h>
#include <stdlib.h>
#include <string.h>
#include <sys/syscall.h>
#include <unistd.h>

#ifdef LINKED_IN
#define INTERRUPTING(name) __wrap_##name
#else
#define INTERRUPTING(name) name
#endif

static int interrupts;
static unsigned tries;

__attribute__((constructor)) static void know_program(void)
{
    const char *program = getenv("INTERRUPTED");
    char own[PATH_MAX] = "";
    interrupts = program != NULL && readlink("/proc/self/exe", own, sizeof own - 1) > 0 && !strcmp(own, program);
}

ssize_t INTERRUPTING(write)(int file, const void *bytes, size_t length)
{
    if (interrupts && file > 2 && tries++ % 2 == 0) {
        errno = EINTR;
        return -1;
    }
    return syscall(SYS_write, file, bytes, length);
}
