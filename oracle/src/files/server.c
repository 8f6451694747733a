/* Answers the calls that lend a file of names, over a pipe, little-endian on both ends. What is lent
   to the library stands between 16 filled bytes on each side. A changed byte there, or in the file,
   the index, the script or the list, ends the program with status 3.

   Request: u32 call, u32 file bytes, u32 index numbers, u32 script bytes, u32 list numbers, u32 words
   lent, u32 text bytes lent; the file, the index, the script, the list. FFFFFFFF in place of the file
   bytes or of the index numbers: those of the request before. FFFFFFFE in place of the file bytes: a file
   of 2^32 zeros, which does not go over the pipe.
   Calls: 0 builds an index in the words, 1 checks the index, 2 reads with the names of the file, 3
   with names searched, 4 lists the fields in the words.
   Answer: 12 u32, the words, the text after the call; they are filled with A5 before it. */
#include <sys/mman.h>

#include "../pipe.h"
#include "stumpgarret.h"

void stumpgarret_names_build(const uint8_t *file, size_t file_length, uint32_t *index,
                             size_t index_length, uint32_t answer[12]);
void stumpgarret_names_check(const uint8_t *file, size_t file_length, const uint32_t *index,
                             size_t index_length, uint32_t answer[12]);
void stumpgarret_read_named(const uint8_t *script, size_t script_length, const uint32_t *literals,
                            size_t literals_length, const uint8_t *file, size_t file_length,
                            const uint32_t *index, size_t index_length, uint32_t *words,
                            size_t words_length, uint8_t *text, size_t text_length,
                            uint32_t answer[12]);
void stumpgarret_read_searched(const uint8_t *script, size_t script_length,
                               const uint32_t *literals, size_t literals_length,
                               const uint8_t *file, size_t file_length, const uint32_t *index,
                               size_t index_length, uint32_t *words, size_t words_length,
                               uint8_t *text, size_t text_length, uint32_t answer[12]);
void stumpgarret_fields_named(const uint8_t *script, size_t script_length, const uint8_t *file,
                              size_t file_length, const uint32_t *index, size_t index_length,
                              uint32_t *rows, size_t rows_length, uint32_t answer[12]);

enum { GUARD = 16, AROUND = 0x5A, FILL = 0xA5 };
enum call { BUILD, CHECK, READ_NAMED, READ_SEARCHED, FIELDS_NAMED };
static const uint32_t BEFORE = UINT32_MAX, HUGE = UINT32_MAX - 1;

/* What is lent: so many elements, so many bytes, and a copy of what is only read. */
struct lent {
    uint8_t *at, *copy;
    size_t length, size;
    int mapped; /* without a copy and bytes around it, since nothing can be written to it */
};

static struct lent lend(size_t length, size_t width)
{
    struct lent lent = {.length = length, .size = length * width};
    uint8_t *whole = malloc(lent.size + 2 * GUARD);
    if (!whole)
        fail(4, "no memory");
    memset(whole, AROUND, GUARD);
    memset(whole + GUARD, FILL, lent.size);
    memset(whole + GUARD + lent.size, AROUND, GUARD);
    lent.at = whole + GUARD;
    return lent;
}

static struct lent map_huge(void)
{
    size_t size = (size_t)1 << 32;
    void *at = mmap(NULL, size, PROT_READ, MAP_PRIVATE | MAP_ANONYMOUS | MAP_NORESERVE, -1, 0);
    if (at == MAP_FAILED)
        fail(4, "no room for a file of 2^32 bytes");
    return (struct lent){.at = at, .length = size, .size = size, .mapped = 1};
}

static void see(const struct lent *lent, const char *name)
{
    if (lent->mapped)
        return;
    for (int i = 0; i < GUARD; i++)
        if (lent->at[i - GUARD] != AROUND || lent->at[lent->size + i] != AROUND) {
            fprintf(stderr, "server: changed outside of %s (%zu bytes)\n", name, lent->size);
            exit(3);
        }
    if (lent->copy && memcmp(lent->at, lent->copy, lent->size)) {
        fprintf(stderr, "server: %s changed\n", name);
        exit(3);
    }
}

static void give_back(struct lent *lent)
{
    if (lent->mapped)
        munmap(lent->at, lent->size);
    else if (lent->at)
        free(lent->at - GUARD);
    free(lent->copy);
    *lent = (struct lent){0};
}

static struct lent take_lent(size_t length, size_t width)
{
    struct lent lent = lend(length, width);
    take(lent.at, lent.size);
    lent.copy = malloc(lent.size + 1);
    if (!lent.copy)
        fail(4, "no memory");
    memcpy(lent.copy, lent.at, lent.size);
    return lent;
}

static struct lent file, names; /* the file and its index, kept for the requests that follow */

static void answer_call(const uint32_t size[7])
{
    if (size[1] != BEFORE || !file.at) {
        give_back(&file);
        file = size[1] == HUGE ? map_huge() : take_lent(size[1], 1);
    }
    if (size[2] != BEFORE || !names.at) {
        give_back(&names);
        names = take_lent(size[2], 4);
    }
    struct lent script = take_lent(size[3], 1), list = take_lent(size[4], 4);
    struct lent words = lend(size[5], 4), text = lend(size[6], 1), answer = lend(12, 4);
    const uint32_t *index = (const uint32_t *)names.at, *literals = (const uint32_t *)list.at;
    uint32_t *written = (uint32_t *)words.at, *numbers = (uint32_t *)answer.at;
    switch (size[0]) {
    case BUILD:
        stumpgarret_names_build(file.at, file.length, written, words.length, numbers);
        break;
    case CHECK:
        stumpgarret_names_check(file.at, file.length, index, names.length, numbers);
        break;
    case READ_NAMED:
        stumpgarret_read_named(script.at, script.length, literals, list.length, file.at,
                               file.length, index, names.length, written, words.length, text.at,
                               text.length, numbers);
        break;
    case READ_SEARCHED:
        stumpgarret_read_searched(script.at, script.length, literals, list.length, file.at,
                                  file.length, index, names.length, written, words.length, text.at,
                                  text.length, numbers);
        break;
    case FIELDS_NAMED:
        stumpgarret_fields_named(script.at, script.length, file.at, file.length, index,
                                 names.length, written, words.length, numbers);
        break;
    default:
        fail(5, "no such call");
    }
    put(answer.at, answer.size);
    put(words.at, words.size);
    put(text.at, text.size);
    see(&file, "the file");
    see(&names, "the index");
    struct lent *lent[] = {&script, &list, &words, &text, &answer};
    const char *what[] = {"the script", "the list", "the words", "the text", "the answer"};
    for (int i = 0; i < 5; i++) {
        see(lent[i], what[i]);
        give_back(lent[i]);
    }
}

int main(void)
{
    setvbuf(stdout, NULL, _IOFBF, 1 << 20);
    while (more()) {
        uint32_t size[7];
        take(size, sizeof size);
        answer_call(size);
    }
    return 0;
}
