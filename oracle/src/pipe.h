/* A server's end of the pipe: requests on standard input, answers on standard output. What was
   answered goes out before more is waited for. */
#include <stdint.h>
#include <stdio.h>
#include <stdlib.h>
#include <string.h>
#include <unistd.h>

static uint8_t block[1 << 16];
static size_t taken, filled;

static void fail(int status, const char *words)
{
    fprintf(stderr, "server: %s\n", words);
    exit(status);
}

/* Whether there is more to take. */
static int more(void)
{
    if (taken < filled)
        return 1;
    if (fflush(stdout))
        exit(6);
    ssize_t got = read(STDIN_FILENO, block, sizeof block);
    taken = 0;
    filled = got < 0 ? 0 : (size_t)got;
    return filled > 0;
}

static void take(void *to, size_t size)
{
    uint8_t *at = to;
    while (size) {
        if (!more())
            fail(5, "request cut short");
        size_t here = size < filled - taken ? size : filled - taken;
        memcpy(at, block + taken, here);
        taken += here;
        at += here;
        size -= here;
    }
}

static void put(const void *from, size_t size)
{
    if (size && fwrite(from, 1, size, stdout) != size)
        exit(6);
}
