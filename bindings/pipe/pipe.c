/* The library's calls over a pipe, for a machine that cannot load the library itself: this program is for x86-64 and static,
   and runs there under an emulator. Calls come on standard input and answers go to standard output, until the input ends.

   A frame, both ways, all numbers little-endian: u64 bytes of its body, u32 check of these eight bytes, the body, u32 check of
   the body. A check is the CRC-32 of RFC 1952.

   The body of a call: its name without stumpgarret_ in 16 bytes; what it is lent in 8 bytes, a letter each; both filled up with
   zeros; for each letter u64 count and u64 bytes sent; then what is sent of each.

       b n   bytes, and numbers of 32 bits, that are read: so many
       B N   the same that are written to
       w     a number of 32 bits, which is the count
       r     the twelve numbers of a reading

   Zeros at the end of what is lent need not be sent. The body of an answer: u32 check of the call's body, twelve u32, u64 bytes
   sent for each B and N, then what is sent of each, without the zeros at its end.

   Anything else ends it with a line on standard error and status 2, want of memory with 3, a pipe that takes no answer with 4. */
#include <errno.h>
#include <stdint.h>
#include <stdio.h>
#include <stdlib.h>
#include <string.h>
#include <unistd.h>

#include "stumpgarret.h"

enum { NAME = 16, MOST_LENT = 8, HEAD = NAME + MOST_LENT, SIZES = 16, MALFORMED = 2, NO_MEMORY, NO_PIPE };
/* Of what is lent and of a frame, in bytes: more than any call has a use for. */
static const uint64_t MOST_BYTES = (uint64_t)1 << 33, MOST_BODY = (uint64_t)1 << 34;

struct lent {
    char letter;
    uint64_t count, size;
    void *at;
};

static struct lent lent[MOST_LENT];
static uint32_t answer[STUMPGARRET_ANSWER_NUMBERS];

#define BYTES(i) (uint8_t *)lent[i].at, (size_t)lent[i].count
#define NUMBERS(i) (uint32_t *)lent[i].at, (size_t)lent[i].count
#define NUMBER(i) (uint32_t)lent[i].count
#define READING(i) (uint32_t *)lent[i].at

/* Each call of the header: its name, what it is lent, and the arguments made of that. */
#define CALLS                                                                                                    \
    CALL(read, "bnNB", BYTES(0), NUMBERS(1), NUMBERS(2), BYTES(3))                                               \
    CALL(signs, "bnN", BYTES(0), NUMBERS(1), NUMBERS(2))                                                         \
    CALL(literals, "bwN", BYTES(0), NUMBER(1), NUMBERS(2))                                                       \
    CALL(cut, "bN", BYTES(0), NUMBERS(1))                                                                        \
    CALL(fields, "bN", BYTES(0), NUMBERS(1))                                                                     \
    CALL(names_build, "bN", BYTES(0), NUMBERS(1))                                                                \
    CALL(names_check, "bn", BYTES(0), NUMBERS(1))                                                                \
    CALL(read_named, "bnbnNB", BYTES(0), NUMBERS(1), BYTES(2), NUMBERS(3), NUMBERS(4), BYTES(5))                 \
    CALL(read_searched, "bnbnNB", BYTES(0), NUMBERS(1), BYTES(2), NUMBERS(3), NUMBERS(4), BYTES(5))              \
    CALL(fields_named, "bbnN", BYTES(0), BYTES(1), NUMBERS(2), NUMBERS(3))                                       \
    CALL(spec, "b", BYTES(0))                                                                                    \
    CALL(replay, "bnbNBB", BYTES(0), NUMBERS(1), BYTES(2), NUMBERS(3), BYTES(4), BYTES(5))                       \
    CALL(compare, "nbrnbrN", NUMBERS(0), BYTES(1), READING(2), NUMBERS(3), BYTES(4), READING(5), NUMBERS(6))     \
    CALL(write, "nbrB", NUMBERS(0), BYTES(1), READING(2), BYTES(3))                                              \
    CALL(cuts_check, "bwn", BYTES(0), NUMBER(1), NUMBERS(2))                                                     \
    CALL(cuts_plan, "bwN", BYTES(0), NUMBER(1), NUMBERS(2))

#define CALL(name, letters, ...) \
    static void make_##name(void) { stumpgarret_##name(__VA_ARGS__, answer); }
CALLS
#undef CALL
#define CALL(name, letters, ...) {#name, letters, make_##name},
static const struct call {
    char name[NAME], letters[MOST_LENT];
    void (*make)(void);
} calls[] = {CALLS};

static void fail(int status, const char *words)
{
    fprintf(stderr, "stumpgarret-pipe: %s\n", words);
    exit(status);
}

/* CRC-32, eight bytes at a time: table[k] is that of a byte with k zeros behind it. */
static uint32_t table[8][256];

static void make_table(void)
{
    for (uint32_t byte = 0; byte < 256; byte++) {
        uint32_t crc = byte;
        for (int bit = 0; bit < 8; bit++)
            crc = crc >> 1 ^ (crc & 1 ? 0xEDB88320 : 0);
        table[0][byte] = crc;
    }
    for (int k = 1; k < 8; k++)
        for (int byte = 0; byte < 256; byte++)
            table[k][byte] = table[k - 1][byte] >> 8 ^ table[0][table[k - 1][byte] & 255];
}

static uint32_t check_of(const uint8_t *at, uint64_t size)
{
    uint32_t crc = UINT32_MAX;
    for (; size >= 8; at += 8, size -= 8) {
        uint32_t low, high;
        memcpy(&low, at, 4);
        memcpy(&high, at + 4, 4);
        low ^= crc;
        crc = table[7][low & 255] ^ table[6][low >> 8 & 255] ^ table[5][low >> 16 & 255] ^ table[4][low >> 24]
            ^ table[3][high & 255] ^ table[2][high >> 8 & 255] ^ table[1][high >> 16 & 255] ^ table[0][high >> 24];
    }
    for (; size; at++, size--)
        crc = crc >> 8 ^ table[0][(crc ^ *at) & 255];
    return ~crc;
}

static void *room(uint64_t size)
{
    void *at = calloc(size ? size : 1, 1);
    if (!at)
        fail(NO_MEMORY, "no memory");
    return at;
}

/* So many bytes of standard input, or as many as there are. */
static uint64_t take(void *to, uint64_t size)
{
    uint64_t taken = 0;
    while (taken < size) {
        ssize_t got = read(STDIN_FILENO, (uint8_t *)to + taken, size - taken);
        if (got < 0 && errno == EINTR)
            continue;
        if (got <= 0)
            break;
        taken += (uint64_t)got;
    }
    return taken;
}

static void take_all(void *to, uint64_t size)
{
    if (take(to, size) < size)
        fail(MALFORMED, "the input ends inside a frame");
}

static void put(const uint8_t *from, uint64_t size)
{
    while (size) {
        ssize_t put = write(STDOUT_FILENO, from, size);
        if (put < 0 && errno == EINTR)
            continue;
        if (put < 0)
            fail(NO_PIPE, "the answer cannot be written");
        from += put;
        size -= (uint64_t)put;
    }
}

static uint64_t number_at(const uint8_t *at)
{
    uint64_t number;
    memcpy(&number, at, sizeof number);
    return number;
}

/* The body of the next frame, with its check at `check`; nothing at the end of the input. */
static uint8_t *next_body(uint64_t *length, uint32_t *check)
{
    uint8_t head[12];
    uint64_t taken = take(head, sizeof head);
    if (!taken)
        return NULL;
    if (taken < sizeof head)
        fail(MALFORMED, "the input ends inside a frame");
    uint32_t of_length;
    memcpy(&of_length, head + 8, 4);
    if (of_length != check_of(head, 8))
        fail(MALFORMED, "wrong check of a frame's length");
    *length = number_at(head);
    if (*length > MOST_BODY)
        fail(MALFORMED, "a frame is too long");
    if (*length < HEAD)
        fail(MALFORMED, "a frame is too short");
    uint8_t *body = room(*length);
    take_all(body, *length);
    take_all(check, 4);
    if (*check != check_of(body, *length))
        fail(MALFORMED, "wrong check of a frame");
    return body;
}

static const struct call *call_of(const uint8_t *body)
{
    for (size_t i = 0; i < sizeof calls / sizeof *calls; i++)
        if (!memcmp(body, calls[i].name, NAME)) {
            if (memcmp(body + NAME, calls[i].letters, MOST_LENT))
                fail(MALFORMED, "a call is lent otherwise than the library's");
            return calls + i;
        }
    fail(MALFORMED, "unknown call");
    return NULL;
}

/* The bytes of what a letter stands for, so many of it. */
static uint64_t size_of(char letter, uint64_t count)
{
    if (letter == 'w' ? count > UINT32_MAX : letter == 'r' ? count != STUMPGARRET_ANSWER_NUMBERS : count > MOST_BYTES)
        fail(MALFORMED, "a count is over its limit");
    uint64_t size = letter == 'w' ? 0 : letter == 'b' || letter == 'B' ? count : 4 * count;
    if (size > MOST_BYTES)
        fail(MALFORMED, "a count is over its limit");
    return size;
}

/* Takes what is lent from a call's body, and gives how much it is. */
static int lend(const char *letters, const uint8_t *body, uint64_t length)
{
    int many = 0;
    while (many < MOST_LENT && letters[many])
        many++;
    uint64_t at = HEAD + SIZES * (uint64_t)many;
    if (length < at)
        fail(MALFORMED, "a frame is too short");
    for (int i = 0; i < many; i++) {
        const uint8_t *sizes = body + HEAD + SIZES * i;
        uint64_t count = number_at(sizes), sent = number_at(sizes + 8);
        lent[i] = (struct lent){letters[i], count, size_of(letters[i], count), NULL};
        if (sent > lent[i].size || sent > length - at)
            fail(MALFORMED, "more is sent than is lent, or than the frame has");
        lent[i].at = room(lent[i].size);
        memcpy(lent[i].at, body + at, sent);
        at += sent;
    }
    if (at != length)
        fail(MALFORMED, "a frame is too long for what it lends");
    return many;
}

/* How many bytes are to be sent: up to the last that is not zero. */
static uint64_t sent_of(const struct lent *one)
{
    const uint8_t *bytes = one->at;
    uint64_t size = one->size;
    for (; size >= 8 && !number_at(bytes + size - 8); size -= 8)
        ;
    while (size && !bytes[size - 1])
        size--;
    return size;
}

static void put_answer(int many, uint32_t check)
{
    uint64_t sent[MOST_LENT] = {0}, length = sizeof check + sizeof answer;
    for (int i = 0; i < many; i++)
        if (lent[i].letter == 'B' || lent[i].letter == 'N') {
            sent[i] = sent_of(lent + i);
            length += sizeof *sent + sent[i];
        }
    uint8_t *frame = room(8 + 4 + length + 4), *body = frame + 12, *at = body;
    memcpy(frame, &length, 8);
    memcpy(frame + 8, &(uint32_t){check_of(frame, 8)}, 4);
#define PUT(from, size) (memcpy(at, from, size), at += (size))
    PUT(&check, sizeof check);
    PUT(answer, sizeof answer);
    for (int i = 0; i < many; i++)
        if (lent[i].letter == 'B' || lent[i].letter == 'N')
            PUT(sent + i, sizeof *sent);
    for (int i = 0; i < many; i++)
        PUT(lent[i].at, sent[i]);
    PUT(&(uint32_t){check_of(body, length)}, 4);
    put(frame, 8 + 4 + length + 4);
    free(frame);
}

int main(void)
{
    make_table();
    uint64_t length;
    uint32_t check;
    uint8_t *body;
    while ((body = next_body(&length, &check))) {
        const struct call *call = call_of(body);
        int many = lend(call->letters, body, length);
        free(body);
        call->make();
        put_answer(many, check);
        for (int i = 0; i < many; i++)
            free(lent[i].at);
    }
    return 0;
}
