// Random bytes, also where Linux, before 3.17, has no call for them: they are read from /dev/urandom there. It stands in
// place of the C library's function of this name, needs no header, and is the same for glibc and for musl.

enum { INTERRUPTED = 4, NO_SUCH_CALL = 38, READ_ONLY_CLOSED_BY_EXEC = 02000000 }; // EINTR, ENOSYS, O_RDONLY | O_CLOEXEC

int *__errno_location(void);
int open(const char *path, int flags, ...);
int close(int descriptor);
long read(int descriptor, void *bytes, unsigned long length);
long getrandom(void *bytes, unsigned long length, unsigned flags);

// Fills all of it, at most 256 bytes, and returns 0, or -1 with the fault in errno.
int getentropy(void *bytes, unsigned long length) {
    long count;
    do count = getrandom(bytes, length, 0);
    while (count < 0 && *__errno_location() == INTERRUPTED);
    if (count < 0 && *__errno_location() == NO_SUCH_CALL) {
        int file = open("/dev/urandom", READ_ONLY_CLOSED_BY_EXEC);
        if (file < 0) return -1;
        count = read(file, bytes, length);
        close(file);
    }
    return count == (long)length ? 0 : -1;
}
