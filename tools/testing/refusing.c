/*
 * Refuses one request for memory of the program whose path is REFUSED. It is loaded before the C library (LD_PRELOAD), or
 * linked into a static program, with LINKED_IN defined and the linker's --wrap=malloc and --wrap=realloc. The file that
 * REFUSALS names holds two numbers of eight bytes: how many requests are left until one is refused, or 0 for none, and
 * how many were refused.
 */
#include <errno.h>
#include <fcntl.h>
#include <limits.h>
#include <stdint.h>
#include <stdlib.h>
#include <string.h>
#include <sys/mman.h>
#include <unistd.h>

#ifdef LINKED_IN
#define REFUSING(name) __wrap_##name
#define REAL(name) __real_##name
#else
#define REFUSING(name) name
#define REAL(name) __libc_##name
#endif

void *REAL(malloc)(size_t size);
void *REAL(realloc)(void *old, size_t size);

static volatile uint64_t *numbers;

__attribute__((constructor)) static void open_numbers(void)
{
    const char *program = getenv("REFUSED"), *name = getenv("REFUSALS");
    char own[PATH_MAX] = "";
    if (program == NULL || name == NULL || readlink("/proc/self/exe", own, sizeof own - 1) < 0 || strcmp(own, program))
        return;
    int file = open(name, O_RDWR);
    void *shared = file < 0 ? MAP_FAILED : mmap(NULL, 16, PROT_READ | PROT_WRITE, MAP_SHARED, file, 0);
    if (shared != MAP_FAILED)
        numbers = shared;
}

static int is_refused(void)
{
    if (numbers == NULL || numbers[0] == 0 || --numbers[0] > 0)
        return 0;
    numbers[1]++;
    errno = ENOMEM;
    return 1;
}

void *REFUSING(malloc)(size_t size)
{
    return is_refused() ? NULL : REAL(malloc)(size);
}

void *REFUSING(realloc)(void *old, size_t size)
{
    return is_refused() ? NULL : REAL(realloc)(old, size);
}
