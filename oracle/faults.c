/* Faults that a shell can't make, for odd_input.sh.
 * As a program: `faults in PROGRAM` gives PROGRAM a non-blocking pipe as standard input, whose writer is late;
 * `faults out PROGRAM` a non-blocking pipe as standard output, which is emptied when the program has ended.
 * As a preloaded library (-shared -fPIC): half of all reads of descriptor 0 and writes to descriptor 1 are
 * interrupted, and the others move fewer bytes than asked. With -DFILES so are the reads of descriptors above 2. */
#define _GNU_SOURCE
#include <errno.h>
#include <fcntl.h>
#include <stdio.h>
#include <string.h>
#include <sys/syscall.h>
#include <sys/wait.h>
#include <unistd.h>

#ifdef PRELOADED
static unsigned seed = 12345;

static unsigned draw(void) {
    seed = seed * 1103515245u + 12345u;
    return seed >> 8;
}

/* The number of bytes that a call may move, or 0 for an interruption. */
static size_t part(size_t n) { return draw() % 2 ? 0 : n < 2 ? n : 1 + draw() % n; }

#ifdef FILES
#define FAULTY(fd) ((fd) == 0 || (fd) > 2)
#else
#define FAULTY(fd) ((fd) == 0)
#endif

ssize_t read(int fd, void *to, size_t n) {
    size_t m = FAULTY(fd) && n ? part(n) : n;
    if (n && !m) {
        errno = EINTR;
        return -1;
    }
    return syscall(SYS_read, fd, to, m);
}

ssize_t write(int fd, const void *from, size_t n) {
    size_t m = fd == 1 && n ? part(n) : n;
    if (n && !m) {
        errno = EINTR;
        return -1;
    }
    return syscall(SYS_write, fd, from, m);
}
#else
static void copy_all(int from) {
    char page[65536];
    ssize_t n;
    while ((n = read(from, page, sizeof page)) > 0)
        fwrite(page, 1, (size_t)n, stdout);
    fflush(stdout);
}

int main(int argc, char **argv) {
    int ends[2], status = 0;
    if (argc < 3 || pipe(ends))
        return 2;
    int in = !strcmp(argv[1], "in");
    fcntl(ends[in ? 0 : 1], F_SETFL, O_NONBLOCK);
    pid_t child = fork();
    if (!child) {
        dup2(ends[in ? 0 : 1], in ? 0 : 1);
        close(ends[0]);
        close(ends[1]);
        execv(argv[2], argv + 2);
        _exit(127);
    }
    if (in) {
        close(ends[0]);
        usleep(300000);
        close(ends[1]);
        waitpid(child, &status, 0);
    } else {
        close(ends[1]);
        waitpid(child, &status, 0);
        copy_all(ends[0]);
    }
    return WIFEXITED(status) ? WEXITSTATUS(status) : 128 + WTERMSIG(status);
}
#endif
