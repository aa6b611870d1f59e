/* Checks and translates E, the bench sheet's envelope, tests its program and boots by it. */
#include "pitvorgas.h"
#include "pitvorgas_text.h"

#include <stdio.h>
#include <string.h>

static const uint8_t E[83] = {
    0xa2, 0x01, 0xf6, 0x03, 0x58, 0x4d, 0xa4, 0x01, 0x01, 0x02, 0x01, 0x03, 0x58, 0x3c, 0xa2, 0x02, 0x4c, 0x81, 0x82, 0x45, 0x46,
    0x6c, 0x61, 0x73, 0x68, 0x43, 0x00, 0x34, 0x01, 0x04, 0x58, 0x2a, 0x82, 0x13, 0xa2, 0x0b, 0x58, 0x20, 0x00, 0x11, 0x22, 0x33,
    0x44, 0x55, 0x66, 0x77, 0x88, 0x99, 0xaa, 0xbb, 0xcc, 0xdd, 0xee, 0xff, 0x01, 0x23, 0x45, 0x67, 0x89, 0xab, 0xcd, 0xef, 0xfe,
    0xdc, 0xba, 0x98, 0x76, 0x54, 0x32, 0x10, 0x0c, 0x19, 0x87, 0xd0, 0x0c, 0x47, 0x86, 0x0c, 0x00, 0x03, 0xf6, 0x17, 0xf6};

enum { DIGEST = 38, IDENTIFIER = 18, IDENTIFIER_LENGTH = 11, IMAGE_SIZE = 34768, CAPACITY = 65536 };

static uint8_t slots[PITVORGAS_SLOT_BYTES], trace[PITVORGAS_TRACE_BYTES], room[PITVORGAS_PROGRAM_BYTES];
static struct pitvorgas_device device;

static void put4(uint8_t *at, uint32_t n) {
    at[0] = (uint8_t)(n >> 24);
    at[1] = (uint8_t)(n >> 16);
    at[2] = (uint8_t)(n >> 8);
    at[3] = (uint8_t)n;
}

static unsigned get2(const uint8_t *at) {
    return 256u * at[0] + at[1];
}

/* One slot, with E's component and the image that E asks for. */
static void fill_slot(uint8_t *slot) {
    slot[PITVORGAS_SLOT_IDENTIFIER_LENGTH] = IDENTIFIER_LENGTH;
    memcpy(slot + PITVORGAS_SLOT_IDENTIFIER, E + IDENTIFIER, IDENTIFIER_LENGTH);
    put4(slot + PITVORGAS_SLOT_CAPACITY, CAPACITY);
    slot[PITVORGAS_SLOT_PRESENT] = 1;
    put4(slot + PITVORGAS_SLOT_SIZE, IMAGE_SIZE);
    memcpy(slot + PITVORGAS_SLOT_DIGEST, E + DIGEST, PITVORGAS_DIGEST_BYTES);
}

static int refused(size_t refusal, size_t place) {
    printf("refused with %zu at %zu: %s\n", refusal, place, pitvorgas_refusal_text(refusal));
    return 1;
}

static void show_event(const uint8_t *event) {
    printf("%u: %s, component %u: %s\n", get2(event + PITVORGAS_EVENT_PLACE), pitvorgas_command_text(event[PITVORGAS_EVENT_CODE]),
           event[PITVORGAS_EVENT_COMPONENT], pitvorgas_result_text(event[PITVORGAS_EVENT_RESULT]));
}

int main(void) {
    struct pitvorgas_check_answer checked = pitvorgas_check(E, sizeof E);
    if (checked.refusal != 0)
        return refused(checked.refusal, checked.place);
    printf("number %zu, %zu component\n", checked.number, checked.components);

    struct pitvorgas_translate_answer translated = pitvorgas_translate(E, sizeof E, true, room, sizeof room);
    if (translated.refusal != 0)
        return refused(translated.refusal, translated.place);
    if (!pitvorgas_test_program(room, translated.length))
        return refused(PITVORGAS_BAD_PROGRAM, 0);
    printf("boot program of %zu bytes\n", translated.length);

    fill_slot(slots);
    device.number = checked.number;
    /* no answers: a length of 0, and still no null pointer */
    struct pitvorgas_run_answer ran =
        pitvorgas_run_program(room, translated.length, true, device, slots, sizeof slots, E, 0, trace, sizeof trace);
    if (ran.refusal != 0)
        return refused(ran.refusal, ran.place);
    for (size_t k = 0; k < ran.events; k++)
        show_event(trace + PITVORGAS_EVENT_BYTES * k);
    printf("end %zu at %zu: %s\n", ran.end, ran.place, pitvorgas_end_text(ran.end));
    return 0;
}
