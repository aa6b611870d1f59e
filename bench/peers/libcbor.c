/* Our check of an envelope against libcbor's walk of the same bytes: a number for each envelope, the time of check over that of the walk.
   The walk reads every head by libcbor's stream decoder and opens every byte string that holds one array or map, and tests nothing else.
   Which ones these are is found before the time is taken. With the number of an envelope it walks that one once, for callgrind to count.
   `libcbor` builds and runs this. */
#include <cbor.h>
#include <string.h>

#include "../../include/pitvorgas.h"
#include "../c/rounds.h"

enum { ENVELOPES = 4, ENVELOPE_ROOM = 4096 };

typedef struct {
    unsigned char bytes[ENVELOPE_ROOM];
    size_t length;
    unsigned char opened[ENVELOPE_ROOM]; /* by the place where the string's bytes start */
} subject;

/* How many items are still to come: an array or a map adds those that it holds. */
static void counts_array(void *left, size_t items)
{
    *(size_t *)left += items;
}

static void counts_map(void *left, size_t pairs)
{
    *(size_t *)left += 2 * pairs;
}

/* Whether the bytes are one array or map, with all that it holds, and nothing after it. */
static int holds_items(cbor_data bytes, size_t length)
{
    struct cbor_callbacks counting = cbor_empty_callbacks;
    size_t left = 1, at = 0;
    counting.array_start = counts_array;
    counting.map_start = counts_map;
    if (!length || (bytes[0] >> 5 != 4 && bytes[0] >> 5 != 5))
        return 0;
    for (; left && at < length; left--) {
        struct cbor_decoder_result head = cbor_stream_decode(bytes + at, length - at, &counting, &left);
        if (head.status != CBOR_DECODER_FINISHED)
            return 0;
        at += head.read;
    }
    return !left && at == length;
}

static struct cbor_callbacks marking, walking;

static size_t walk(cbor_data bytes, size_t length, const struct cbor_callbacks *callbacks, subject *s)
{
    size_t at = 0;
    while (at < length) {
        struct cbor_decoder_result head = cbor_stream_decode(bytes + at, length - at, callbacks, s);
        if (head.status != CBOR_DECODER_FINISHED)
            return at;
        at += head.read;
    }
    return at;
}

static void marks(void *x, cbor_data bytes, size_t length)
{
    subject *s = x;
    if (holds_items(bytes, length)) {
        s->opened[bytes - s->bytes] = 1;
        walk(bytes, length, &marking, s);
    }
}

static void opens(void *x, cbor_data bytes, size_t length)
{
    subject *s = x;
    if (s->opened[bytes - s->bytes])
        walk(bytes, length, &walking, s);
}

static __attribute__((noinline)) void walks(const void *x)
{
    subject *s = (subject *)x;
    size_t at = walk(s->bytes, s->length, &walking, s);
    __asm__ volatile("" : : "r"(at) : "memory");
}

static void checks(const void *x)
{
    const subject *s = x;
    struct pitvorgas_check_answer answer = pitvorgas_check(s->bytes, s->length);
    __asm__ volatile("" : : "r"(&answer) : "memory");
}

static void read_subject(const char *folder, int i, subject *s)
{
    char name[32];
    snprintf(name, sizeof name, "%d.envelope", i);
    memset(s, 0, sizeof *s);
    s->length = file(folder, name, s->bytes, ENVELOPE_ROOM);
    if (walk(s->bytes, s->length, &marking, s) != s->length) {
        fprintf(stderr, "%s: not read to its end\n", name);
        exit(2);
    }
}

int main(int words, char **word)
{
    static subject s;
    if (words != 2 && words != 3) {
        fprintf(stderr, "usage: libcbor FOLDER [ENVELOPE]\n");
        return 2;
    }
    marking = walking = cbor_empty_callbacks;
    marking.byte_string = marks;
    walking.byte_string = opens;
    if (words == 3) {
        read_subject(word[1], atoi(word[2]), &s);
        walks(&s);
        return 0;
    }
    for (int i = 0; i < ENVELOPES; i++) {
        read_subject(word[1], i, &s);
        printf("%.4f ", ratio(checks, walks, &s));
    }
    printf("\n");
    return 0;
}
