// Linked before the C library by LD_PRELOAD: so many reads go through, as the variable READS says, and those behind them fail.
#include <errno.h>
#include <stdlib.h>
#include <sys/syscall.h>
#include <unistd.h>

ssize_t read(int fd, void *bytes, size_t count)
{
    static long done;
    const char *most = getenv("READS");
    if (most && done++ >= atol(most)) {
        errno = EIO;
        return -1;
    }
    return syscall(SYS_read, fd, bytes, count);
}
