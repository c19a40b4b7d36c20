// Answers of read and write that a test machine seldom gives: an interrupt, no byte for now, one byte, at most 1,999. Loaded before the C library.
#include <errno.h>
#include <sys/syscall.h>
#include <unistd.h>

static ssize_t answer(unsigned *turn, long call, int fd, void *bytes, size_t n) {
    switch ((*turn)++ % 4) {
    case 0:
        errno = EINTR;
        return -1;
    case 1:
        errno = EAGAIN;
        return -1;
    case 2:
        return syscall(call, fd, bytes, n < 1 ? n : 1);
    default:
        return syscall(call, fd, bytes, n < 1999 ? n : 1999);
    }
}

ssize_t read(int fd, void *bytes, size_t n) {
    static unsigned turn;
    return answer(&turn, SYS_read, fd, bytes, n);
}

ssize_t write(int fd, const void *bytes, size_t n) {
    static unsigned turn;
    return answer(&turn, SYS_write, fd, (void *)bytes, n);
}
