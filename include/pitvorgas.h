/* Pitvorgas: check, compare, run and translate SUIT manifests for gate controllers.
 *
 * Link target/staticlib/libpitvorgas.a, which tools/staticlib writes. Nothing is allocated, nothing is kept between calls, and
 * no call keeps a pointer. A slice is a pointer and a length.
 *
 * Every function is proved: whatever its slices hold and however long they are, and whatever its numbers and bools are, it ends, reads and
 * writes only what it is lent, and gives what its comment says. "The rule" is the definition of that name in crates/rules/specs, which is
 * document 01, "Manifest rules for gate controllers", with T-01 of document 02, as definitions. The contracts stand over the functions
 * of the same names in crates/pitvorgas/src/lib.rt, the structs in crates/pitvorgas_answers/src/lib.rt (`CheckAnswer` is
 * `pitvorgas_check_answer`); the numbers in the answers are those that crates/rules/specs/Answers.antt gives each refusal and end.
 *
 * The proofs do not cover, and a caller must not make, a call with
 *   - a null pointer, even with length 0, or a pointer to fewer bytes than the length says;
 *   - a slice that is written to (room, slots, trace) and overlaps another slice of the same call;
 *   - a bool, in an argument or in the device, whose byte is neither 0 nor 1.
 * What such a call does is not defined.
 *
 * Contents: version, limits, codes and keys, refusals, ends and failures, layouts of lent bytes, device and answers, functions, asserts.
 * The words for these numbers are in pitvorgas_text.h. tools/header compares each number here with the rules'.
 */
#ifndef PITVORGAS_H
#define PITVORGAS_H

#include <stdbool.h>
#include <stddef.h>
#include <stdint.h>

#ifdef __cplusplus
extern "C" {
#endif

#define PITVORGAS_VERSION_MAJOR 0
#define PITVORGAS_VERSION_MINOR 7
#define PITVORGAS_VERSION_PATCH 0
#define PITVORGAS_VERSION "0.7.0"

/* Limits of document 01; that of a program's bytes is of 02, T-01. */
enum {
    PITVORGAS_ENVELOPE_BYTES = 4096,
    PITVORGAS_COMPONENTS = 8,
    PITVORGAS_IDENTIFIER_PARTS = 4,
    PITVORGAS_IDENTIFIER_BYTES = 32, /* as encoded */
    PITVORGAS_SECTIONS = 6,          /* common's sequence and sections 8 to 12 */
    PITVORGAS_SEQUENCE_COMMANDS = 64,
    PITVORGAS_DEPTH = 4,      /* sequences one in another */
    PITVORGAS_COMMANDS = 256, /* of an envelope as 74 weighs them, and of a program those that are no jumps */
    PITVORGAS_ALTERNATIVES = 4,
    PITVORGAS_PARAMETERS = 5,
    PITVORGAS_URI_BYTES = 96,
    PITVORGAS_DIGEST_BYTES = 32,
    PITVORGAS_CLASS_BYTES = 16, /* of a vendor too */
    PITVORGAS_SLOTS = 8,
    PITVORGAS_TRACE_BYTES = 2048, /* the least that a run asks for, and enough for any run */
    PITVORGAS_RECORDS = 1024,     /* command records, jumps included */
    PITVORGAS_PROGRAM_BYTES = 49152
};

/* The largest sequence number of a manifest, and the largest number in it: over what an enum of C has. */
#define PITVORGAS_LARGEST_NUMBER UINT32_C(4294967295)

/* Codes of commands, in events and program records. */
enum {
    PITVORGAS_COMMAND_VENDOR = 1,
    PITVORGAS_COMMAND_CLASS = 2,
    PITVORGAS_COMMAND_IMAGE_MATCH = 3,
    PITVORGAS_COMMAND_SET_INDEX = 12,
    PITVORGAS_COMMAND_ABORT = 14,
    PITVORGAS_COMMAND_TRY_EACH = 15, /* neither an event nor a record has it */
    PITVORGAS_COMMAND_SET_PARAMETERS = 19,
    PITVORGAS_COMMAND_OVERRIDE_PARAMETERS = 20,
    PITVORGAS_COMMAND_FETCH = 21,
    PITVORGAS_COMMAND_COPY = 22,
    PITVORGAS_COMMAND_RUN = 23,
    PITVORGAS_COMMAND_RUN_SEQUENCE = 30, /* likewise */
    PITVORGAS_COMMAND_SWAP = 32,
    PITVORGAS_COMMAND_JUMP = 0xff /* in programs alone, and no event has it */
};

/* Keys of parameters. */
enum {
    PITVORGAS_KEY_COERCE = 2,
    PITVORGAS_KEY_URI = 6,
    PITVORGAS_KEY_SOURCE = 10,
    PITVORGAS_KEY_DIGEST = 11,
    PITVORGAS_KEY_SIZE = 12
};

/* Keys of a manifest's sections; common's sequence goes by the key of common. */
enum {
    PITVORGAS_SECTION_COMMON = 3,
    PITVORGAS_SECTION_PAYLOAD_FETCH = 8,
    PITVORGAS_SECTION_INSTALL = 9,
    PITVORGAS_SECTION_VALIDATE = 10,
    PITVORGAS_SECTION_LOAD = 11,
    PITVORGAS_SECTION_RUN = 12
};

/* Groups: of a program, in its start. As an argument (`boot`) a group is a bool. Install does sections 8 and 9 and boot sections 10, 11 and
 * 12, those that are there, and common's sequence before each of them; where the group has none, common's sequence once. */
enum {
    PITVORGAS_GROUP_INSTALL = 0,
    PITVORGAS_GROUP_BOOT = 1
};

/* Refusals. A refusal changes no byte that was lent, and no number. 0 is none. */
enum {
    PITVORGAS_ENVELOPE_TOO_LONG = 64,
    PITVORGAS_NOT_CBOR = 65,
    PITVORGAS_MALFORMED = 66,
    PITVORGAS_WRONG_VERSION = 67,
    PITVORGAS_REPEATED_IDENTIFIER = 68,
    PITVORGAS_UNKNOWN_COMMAND = 69,
    PITVORGAS_UNKNOWN_PARAMETER = 70,
    PITVORGAS_NOT_ALLOWED = 71,
    PITVORGAS_NO_SUCH_COMPONENT = 72,
    PITVORGAS_TOO_DEEP = 73,
    PITVORGAS_TOO_MANY_COMMANDS = 74, /* one of common weighs as many as the manifest's head promises sections, at least 1; others 1 */
    PITVORGAS_NOT_VERIFIED = 80,
    PITVORGAS_EVENT_OPEN = 81,
    PITVORGAS_WRONG_NUMBER = 82,
    PITVORGAS_NO_SLOT = 83,
    PITVORGAS_SHORT_TRACE = 84,
    PITVORGAS_BAD_SLOTS = 85,
    PITVORGAS_BAD_ANSWERS = 86,
    PITVORGAS_SHORT_ROOM = 96,
    PITVORGAS_BAD_PROGRAM = 97
};

/* Ends of a run: one of these three, or the failure that nothing catches. */
enum {
    PITVORGAS_FINISHED = 0,
    PITVORGAS_CONDITION_FAILED = 1,
    PITVORGAS_STARTED = 2
};

/* Failures. */
enum {
    PITVORGAS_PARAMETER_UNSET = 32,
    PITVORGAS_ABORTED = 33,
    PITVORGAS_NO_ANSWER = 34,
    PITVORGAS_BAD_STATUS = 35,
    PITVORGAS_TOO_LARGE = 36,
    PITVORGAS_NOTHING_TO_COPY = 37,
    PITVORGAS_NOTHING_TO_RUN = 38
};

/* Lent bytes. A name below is the offset of a field; the comment tells its bytes, 1 where it tells none. Numbers are big-endian. */

/* A slot, 74 bytes. Slots are 1 to 8 of them, one after the other. */
enum {
    PITVORGAS_SLOT_IDENTIFIER_LENGTH = 0, /* 1 to 32 */
    PITVORGAS_SLOT_IDENTIFIER = 1,        /* 32, of which as many count as the length says */
    PITVORGAS_SLOT_CAPACITY = 33,         /* 4 */
    PITVORGAS_SLOT_PRESENT = 37,          /* 0 for no */
    PITVORGAS_SLOT_SIZE = 38,             /* 4 */
    PITVORGAS_SLOT_DIGEST = 42,           /* 32 */
    PITVORGAS_SLOT_BYTES = 74
};

/* A host answer, 37 bytes. Answers are any number of them; a fetch takes the next. */
enum {
    PITVORGAS_ANSWER_STATUS = 0, /* 0 for good */
    PITVORGAS_ANSWER_SIZE = 1,   /* 4 */
    PITVORGAS_ANSWER_DIGEST = 5, /* 32 */
    PITVORGAS_ANSWER_BYTES = 37
};

/* An event, 8 bytes. The trace has at least 2,048: event k stands at 8 k, bytes beyond the last event keep their values. A command of
 * common has an event each time that it is done, always with the same place. */
enum {
    PITVORGAS_EVENT_MARK = 0x5354, /* in 2, at 0 */
    PITVORGAS_EVENT_CODE = 2,
    PITVORGAS_EVENT_COMPONENT = 3,
    PITVORGAS_EVENT_PLACE = 4,  /* 2: the place of the code in the envelope */
    PITVORGAS_EVENT_RESULT = 6, /* 0, 1 or a failure; a 0 follows it */
    PITVORGAS_EVENT_BYTES = 8
};

/* A program, at most 49,152 bytes: a start, a record for each component, and the command records, numbered from 0, in the order of the run:
 * those of common stand before those of each section. */
enum {
    PITVORGAS_RECORD_MARK = 0x5350, /* in 2, at 0 of each of them */
    PITVORGAS_RECORD_CODE = 2,      /* the start's, a component's, or that of a command or jump */

    PITVORGAS_START_CODE = 0xfe,
    PITVORGAS_START_GROUP = 3,
    PITVORGAS_START_NUMBER = 4,     /* 4: the sequence number */
    PITVORGAS_START_COMPONENTS = 8, /* how many components */
    PITVORGAS_START_RECORDS = 9,    /* 2: how many command records */
    PITVORGAS_START_BYTES = 11,

    PITVORGAS_NAME_CODE = 0xfd,
    PITVORGAS_NAME_LENGTH = 3,
    PITVORGAS_NAME_IDENTIFIER = 4, /* as many as the length says */

    PITVORGAS_RECORD_COMPONENT = 3,
    PITVORGAS_RECORD_PLACE = 4,           /* 2: the place of the code in the envelope */
    PITVORGAS_RECORD_TARGET = 6,          /* 2: below */
    PITVORGAS_RECORD_ARGUMENT_LENGTH = 8, /* 2 */
    PITVORGAS_RECORD_ARGUMENT = 10        /* as many as the length says: below */
};

/* The target of a jump is the record to go on at; of a condition (codes 1 to 3), the record where its failure goes on, or no target where
 * nothing catches it; the record count means finished. All other codes have no target. */
enum {
    PITVORGAS_NO_TARGET = 0xffff
};

/* The argument of 1 and 2 is the 16 bytes; of 19 and 20 these entries, one for each parameter but coerce, by key. */
enum {
    PITVORGAS_ENTRY_KEY = 0,
    PITVORGAS_ENTRY_LENGTH = 1,
    PITVORGAS_ENTRY_VALUE = 2,  /* as many as the length says */
    PITVORGAS_SOURCE_BYTES = 1, /* the length of a source, and that of a size */
    PITVORGAS_SIZE_BYTES = 4
};

/* The device: vendor and class identifiers, the sequence number of the manifest installed last, and whether an event is open. The number
 * may be any: one over PITVORGAS_LARGEST_NUMBER is over every manifest's, so no run gets past 82. On x86-64 a device has 48 bytes: vendor
 * at 0, class at 16, number at 32 (in the machine's own order), event at 40, and 7 of padding. */
struct pitvorgas_device {
    uint8_t vendor[PITVORGAS_CLASS_BYTES];
    uint8_t class_id[PITVORGAS_CLASS_BYTES];
    size_t number;
    bool event;
};

/* What check answers. On a refusal all but `refusal` and `place` is 0. Else `refusal` and `place` are 0. Places are those of bytes in the
 * envelope: identifier k stands from ids[2 k] to before ids[2 k + 1]; sections has the same for common's sequence and sections 8 to 12, in
 * that order, 0 and 0 for one that is not there; the manifest stands from `from` to before `to`. */
struct pitvorgas_check_answer {
    size_t refusal, place;
    size_t number, components;
    size_t ids[2 * PITVORGAS_COMPONENTS], sections[2 * PITVORGAS_SECTIONS];
    size_t from, to;
};

/* The manifest stands in the second envelope where `second` is 1 and in the first where it is 0, from `from` to before `to`. */
struct pitvorgas_newer_answer {
    size_t second, from, to;
};

/* A refusal and its place, and length 0; or 0 and 0, and the program's length. */
struct pitvorgas_translate_answer {
    size_t refusal, place, length;
};

/* A refusal and its place, and 0 in end, events and used; or refusal 0, the end and its place (the last event's; 0 where the run finished),
 * how many events were written and answers used. `number`: the device's sequence number after the run. */
struct pitvorgas_run_answer {
    size_t refusal, place, end, events, used, number;
};

/* The functions. No pointer may be null, and no answer be left unread: compilers that can say so do. */
#if defined(__GNUC__) || defined(__clang__)
#define PITVORGAS_FUNCTION __attribute__((nonnull, warn_unused_result))
#else
#define PITVORGAS_FUNCTION
#endif

/* Bytes of stack, at most, with all that is called and the return address, on x86-64 (tools/stack measures them on the library):
 *
 *     pitvorgas_check          2,600
 *     pitvorgas_newer          2,408
 *     pitvorgas_translate      4,120
 *     pitvorgas_test_program     496
 *     pitvorgas_run            3,192
 *     pitvorgas_run_program    1,296
 *
 * Reentrancy: the library has no static data and keeps no state, so calls may go on at once, in threads or in interrupts that come in the
 * midst of a call, as long as no slice that one of them writes to (room, slots, trace) overlaps a slice of another.
 *
 * Needs: memset, and nothing else of the C library. As the x86-64 ABI allows, the xmm registers are used, and bytes below the stack pointer
 * (the red zone; they are counted above).
 */

/* The answer is that of the rule Check.check for the envelope. */
PITVORGAS_FUNCTION
struct pitvorgas_check_answer pitvorgas_check(const uint8_t *envelope, size_t envelope_length);

/* The answer is that of the rule Newer.newer: the manifest with the larger number, the first on a tie; an envelope that check refuses is
 * passed over, and where both are refused the answer is the empty start of the first. */
PITVORGAS_FUNCTION
struct pitvorgas_newer_answer pitvorgas_newer(const uint8_t *first, size_t first_length, const uint8_t *second, size_t second_length);

/* The answer is that of the rule Program.translate for the envelope, the group (install, or boot where `boot` is true) and the room's
 * length: check's refusal, or 96 at place 0 exactly where the room is shorter than the program; then the room is as lent. Else the program
 * stands at the start of the room, and the bytes beyond it are as lent. */
PITVORGAS_FUNCTION
struct pitvorgas_translate_answer pitvorgas_translate(const uint8_t *envelope, size_t envelope_length, bool boot,
                                                      uint8_t *room, size_t room_length);

/* True exactly where the bytes are a well-formed program by the rule ProgramTest.program_in: a run of them is never refused with 97, and of
 * any other bytes always. Nothing is run, and nothing is changed. */
PITVORGAS_FUNCTION
bool pitvorgas_test_program(const uint8_t *program, size_t program_length);

/* The answer, every byte of slots and every byte of trace are those of the rule Run.run_envelope for the envelope, the group and the input:
 * check's refusal, then 80, 81, 82, 85, 83, 86, 84 at place 0, with slots and trace as lent and the number the device's; or the run. */
PITVORGAS_FUNCTION
struct pitvorgas_run_answer pitvorgas_run(const uint8_t *envelope, size_t envelope_length, bool boot, bool verdict,
                                          struct pitvorgas_device device, uint8_t *slots, size_t slots_length,
                                          const uint8_t *answers, size_t answers_length, uint8_t *trace, size_t trace_length);

/* The same by the rule ProgramRun.run_program: 97 at place 0 where the program is not well formed, then 80, 81, 82, 85, 83, 86, 84; or the
 * run. For the program of an envelope, and equal input, it is what pitvorgas_run gives (demand 3: agreement::agree). */
PITVORGAS_FUNCTION
struct pitvorgas_run_answer pitvorgas_run_program(const uint8_t *program, size_t program_length, bool verdict,
                                                  struct pitvorgas_device device, uint8_t *slots, size_t slots_length,
                                                  const uint8_t *answers, size_t answers_length, uint8_t *trace, size_t trace_length);

/* The layouts that the library was compiled for, which a compiler's options could change. */
#if defined(__cplusplus) && __cplusplus >= 201103L
#define PITVORGAS_ASSERT(name, fact) static_assert(fact, #name)
#elif defined(__STDC_VERSION__) && __STDC_VERSION__ >= 201112L
#define PITVORGAS_ASSERT(name, fact) _Static_assert(fact, #name)
#else
#define PITVORGAS_ASSERT(name, fact) typedef char pitvorgas_assert_##name[(fact) ? 1 : -1]
#endif

PITVORGAS_ASSERT(bool_has_a_byte, sizeof(bool) == 1);
PITVORGAS_ASSERT(device_vendor, offsetof(struct pitvorgas_device, vendor) == 0);
PITVORGAS_ASSERT(device_class, offsetof(struct pitvorgas_device, class_id) == 16);
PITVORGAS_ASSERT(device_number, offsetof(struct pitvorgas_device, number) == 32);
PITVORGAS_ASSERT(device_event, offsetof(struct pitvorgas_device, event) == 32 + sizeof(size_t));
PITVORGAS_ASSERT(device_bytes, sizeof(struct pitvorgas_device) == 32 + 2 * sizeof(size_t));
PITVORGAS_ASSERT(check_number, offsetof(struct pitvorgas_check_answer, number) == 2 * sizeof(size_t));
PITVORGAS_ASSERT(check_ids, offsetof(struct pitvorgas_check_answer, ids) == 4 * sizeof(size_t));
PITVORGAS_ASSERT(check_sections, offsetof(struct pitvorgas_check_answer, sections) == 20 * sizeof(size_t));
PITVORGAS_ASSERT(check_from, offsetof(struct pitvorgas_check_answer, from) == 32 * sizeof(size_t));
PITVORGAS_ASSERT(check_bytes, sizeof(struct pitvorgas_check_answer) == 34 * sizeof(size_t));
PITVORGAS_ASSERT(newer_to, offsetof(struct pitvorgas_newer_answer, to) == 2 * sizeof(size_t));
PITVORGAS_ASSERT(newer_bytes, sizeof(struct pitvorgas_newer_answer) == 3 * sizeof(size_t));
PITVORGAS_ASSERT(translate_length, offsetof(struct pitvorgas_translate_answer, length) == 2 * sizeof(size_t));
PITVORGAS_ASSERT(translate_bytes, sizeof(struct pitvorgas_translate_answer) == 3 * sizeof(size_t));
PITVORGAS_ASSERT(run_end, offsetof(struct pitvorgas_run_answer, end) == 2 * sizeof(size_t));
PITVORGAS_ASSERT(run_number, offsetof(struct pitvorgas_run_answer, number) == 5 * sizeof(size_t));
PITVORGAS_ASSERT(run_bytes, sizeof(struct pitvorgas_run_answer) == 6 * sizeof(size_t));

/* On x86-64, in numbers. */
#if SIZE_MAX > 0xffffffff
PITVORGAS_ASSERT(device_has_48, sizeof(struct pitvorgas_device) == 48);
PITVORGAS_ASSERT(check_has_272, sizeof(struct pitvorgas_check_answer) == 272);
PITVORGAS_ASSERT(run_has_48, sizeof(struct pitvorgas_run_answer) == 48);
#endif

#ifdef __cplusplus
}
#endif

#endif
