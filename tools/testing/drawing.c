/*
 * Notes for how many random bytes the program whose path is DRAWN asks the system: each call by a line with their number, in
 * the file that DRAWN_TO names. If DRAWN_BIT is a number, all of them are 0 but for one bit of the bytes that it is given in
 * all, which has this number, from 0. It is loaded before the C library (LD_PRELOAD), or linked into a static program, with
 * LINKED_IN defined and the linker's --wrap=getrandom.
 */
#include <fcntl.h>
#include <limits.h>
#include <stdio.h>
#include <stdlib.h>
#include <string.h>
#include <sys/syscall.h>
#include <unistd.h>

#ifdef LINKED_IN
#define DRAWING(name) __wrap_##name
#else
#define DRAWING(name) name
#endif

static const char *notes, *bit;
static long given;

__attribute__((constructor)) static void know_notes(void)
{
    const char *program = getenv("DRAWN");
    char own[PATH_MAX] = "";
    if (program != NULL && readlink("/proc/self/exe", own, sizeof own - 1) > 0 && !strcmp(own, program))
        notes = getenv("DRAWN_TO"), bit = getenv("DRAWN_BIT");
}

ssize_t DRAWING(getrandom)(void *bytes, size_t length, unsigned flags)
{
    ssize_t count = syscall(SYS_getrandom, bytes, length, flags);
    if (count > 0 && bit != NULL) {
        long number = atol(bit) - 8 * given;
        memset(bytes, 0, (size_t)count);
        if (0 <= number && number < 8 * count)
            ((unsigned char *)bytes)[number / 8] = (unsigned char)(1 << number % 8);
        given += count;
    }
    if (notes == NULL || count < 0)
        return count;
    int file = open(notes, O_WRONLY | O_APPEND | O_CREAT, 0644);
    if (file >= 0) {
        dprintf(file, "%zd\n", count);
        close(file);
    }
    return count;
}

int DRAWING(getentropy)(void *bytes, size_t length)
{
    return DRAWING(getrandom)(bytes, length, 0) == (ssize_t)length ? 0 : -1;
}
