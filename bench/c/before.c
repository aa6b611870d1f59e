/* Two builds of the library in one process: a line for each job, a number for each envelope, the time of the new one over that of the
   old one. The old one's functions are called before_..; `before` builds and runs this. */
#include <stdbool.h>
#include <stdint.h>
#include <string.h>

#include "rounds.h"

enum { ENVELOPES = 4, ENVELOPE_ROOM = 4096, PROGRAM_ROOM = 49152, SLOTS_ROOM = 4096, TRACE_BYTES = 2048 };

/* Room for any answer: which fields it has does not matter here. */
typedef struct {
    unsigned char bytes[4096];
} answer;

/* The device of each build: its number was once a uint32_t. */
#ifndef OLD_NUMBER
#define OLD_NUMBER size_t
#endif

#define DEVICE(name, kind)                                                                           \
    typedef struct {                                                                                 \
        unsigned char vendor[16], class_id[16];                                                      \
        kind number;                                                                                 \
        bool event;                                                                                  \
    } name##_device;                                                                                 \
    static name##_device name##_board;                                                               \
    static void name##_start(void)                                                                   \
    {                                                                                                \
        memset(name##_board.vendor, 0x11, sizeof name##_board.vendor);                               \
        memset(name##_board.class_id, 0x22, sizeof name##_board.class_id);                           \
        name##_board.number = 1;                                                                     \
    }

DEVICE(pitvorgas, size_t)
DEVICE(before, OLD_NUMBER)

typedef struct {
    unsigned char envelope[ENVELOPE_ROOM], program[PROGRAM_ROOM];
    size_t envelope_length, program_length;
} subject;

#define BYTES const unsigned char *, size_t
#define ROOM unsigned char *, size_t
#define BUILD(name)                                                                                  \
    answer name##_check(BYTES);                                                                      \
    answer name##_translate(BYTES, bool, ROOM);                                                      \
    answer name##_run(BYTES, bool, bool, name##_device, ROOM, BYTES, ROOM);                          \
    answer name##_run_program(BYTES, bool, name##_device, ROOM, BYTES, ROOM);                        \
    static void name##_checks(const void *x)                                                         \
    {                                                                                                \
        const subject *s = x;                                                                        \
        keep(name##_check(s->envelope, s->envelope_length));                                         \
    }                                                                                                \
    static void name##_translates(const void *x)                                                     \
    {                                                                                                \
        const subject *s = x;                                                                        \
        keep(name##_translate(s->envelope, s->envelope_length, true, room, sizeof room));            \
    }                                                                                                \
    static void name##_boots(const void *x)                                                          \
    {                                                                                                \
        const subject *s = x;                                                                        \
        keep(name##_run(s->envelope, s->envelope_length, true, true, name##_board,                   \
                        slots, slots_length, room, 0, trace, sizeof trace));                         \
    }                                                                                                \
    static void name##_boots_program(const void *x)                                                  \
    {                                                                                                \
        const subject *s = x;                                                                        \
        keep(name##_run_program(s->program, s->program_length, true, name##_board,                   \
                                slots, slots_length, room, 0, trace, sizeof trace));                 \
    }

static unsigned char room[PROGRAM_ROOM], slots[SLOTS_ROOM], trace[TRACE_BYTES];
static size_t slots_length;
static subject subjects[ENVELOPES];

/* The compiler must take an answer for used. */
#define keep(call)                                                                                   \
    do {                                                                                             \
        answer kept = call;                                                                          \
        __asm__ volatile("" : : "r"(&kept) : "memory");                                              \
    } while (0)

BUILD(pitvorgas)
BUILD(before)

static void read_subjects(const char *folder)
{
    for (int i = 0; i < ENVELOPES; i++) {
        char name[32];
        snprintf(name, sizeof name, "%d.envelope", i);
        subjects[i].envelope_length = file(folder, name, subjects[i].envelope, ENVELOPE_ROOM);
        snprintf(name, sizeof name, "%d.program", i);
        subjects[i].program_length = file(folder, name, subjects[i].program, PROGRAM_ROOM);
    }
    slots_length = file(folder, "slots", slots, SLOTS_ROOM);
    pitvorgas_start();
    before_start();
}

static void row(work now, work then)
{
    for (int i = 0; i < ENVELOPES; i++)
        printf("%.4f ", ratio(now, then, &subjects[i]));
    printf("\n");
}

int main(int count, char **words)
{
    if (count != 2) {
        fprintf(stderr, "usage: before FOLDER\n");
        return 2;
    }
    read_subjects(words[1]);
    row(pitvorgas_checks, before_checks);
    row(pitvorgas_boots, before_boots);
    row(pitvorgas_boots_program, before_boots_program);
    row(pitvorgas_translates, before_translates);
    row(pitvorgas_boots, pitvorgas_boots_program);
    return 0;
}
