/* The words for the numbers of pitvorgas.h, in those of document 01, for 74 of 02; "unknown" for any other number. tools/header compares
 * them with the rules' own. A program that calls none of these functions has none of the words. */
#ifndef PITVORGAS_TEXT_H
#define PITVORGAS_TEXT_H

#include "pitvorgas.h"

/* A refusal, of any answer. */
static inline const char *pitvorgas_refusal_text(size_t number) {
    switch (number) {
    case PITVORGAS_ENVELOPE_TOO_LONG: return "envelope over 4,096 bytes";
    case PITVORGAS_NOT_CBOR: return "CBOR rule broken, item past its container's end, or bytes left over";
    case PITVORGAS_MALFORMED: return "wrong type, key, order, count or length";
    case PITVORGAS_WRONG_VERSION: return "version not 1";
    case PITVORGAS_REPEATED_IDENTIFIER: return "identifier twice";
    case PITVORGAS_UNKNOWN_COMMAND: return "code not listed";
    case PITVORGAS_UNKNOWN_PARAMETER: return "parameter not listed";
    case PITVORGAS_NOT_ALLOWED: return "command not allowed there";
    case PITVORGAS_NO_SUCH_COMPONENT: return "index or source not below the count";
    case PITVORGAS_TOO_DEEP: return "depth over 4";
    case PITVORGAS_TOO_MANY_COMMANDS: return "commands past 256, common's counted for each section";
    case PITVORGAS_NOT_VERIFIED: return "signature verdict is no";
    case PITVORGAS_EVENT_OPEN: return "install while an event is open";
    case PITVORGAS_WRONG_NUMBER: return "install: number not above the device's; boot: not equal";
    case PITVORGAS_NO_SLOT: return "a component has no slot";
    case PITVORGAS_SHORT_TRACE: return "trace under 2,048 bytes";
    case PITVORGAS_BAD_SLOTS: return "slot count not 1 to 8, identifier not 1 to 32 bytes or twice, present size over capacity";
    case PITVORGAS_BAD_ANSWERS: return "answers not a multiple of 37 bytes";
    case PITVORGAS_SHORT_ROOM: return "program longer than the room";
    case PITVORGAS_BAD_PROGRAM: return "program not well formed";
    default: return "unknown";
    }
}

/* The end of a run, or the failure that ended it. */
static inline const char *pitvorgas_end_text(size_t number) {
    switch (number) {
    case PITVORGAS_FINISHED: return "finished";
    case PITVORGAS_CONDITION_FAILED: return "condition failed";
    case PITVORGAS_STARTED: return "started";
    case PITVORGAS_PARAMETER_UNSET: return "parameter unset";
    case PITVORGAS_ABORTED: return "aborted";
    case PITVORGAS_NO_ANSWER: return "no answer left";
    case PITVORGAS_BAD_STATUS: return "bad status";
    case PITVORGAS_TOO_LARGE: return "larger than the capacity";
    case PITVORGAS_NOTHING_TO_COPY: return "nothing to copy: slot absent";
    case PITVORGAS_NOTHING_TO_RUN: return "nothing to run: slot absent";
    default: return "unknown";
    }
}

/* A command, by its code in an event or in a program record. */
static inline const char *pitvorgas_command_text(size_t number) {
    switch (number) {
    case PITVORGAS_COMMAND_VENDOR: return "vendor";
    case PITVORGAS_COMMAND_CLASS: return "class";
    case PITVORGAS_COMMAND_IMAGE_MATCH: return "image match";
    case PITVORGAS_COMMAND_SET_INDEX: return "set component index";
    case PITVORGAS_COMMAND_ABORT: return "abort";
    case PITVORGAS_COMMAND_TRY_EACH: return "try each";
    case PITVORGAS_COMMAND_SET_PARAMETERS: return "set parameters";
    case PITVORGAS_COMMAND_OVERRIDE_PARAMETERS: return "override parameters";
    case PITVORGAS_COMMAND_FETCH: return "fetch";
    case PITVORGAS_COMMAND_COPY: return "copy";
    case PITVORGAS_COMMAND_RUN: return "run";
    case PITVORGAS_COMMAND_RUN_SEQUENCE: return "run sequence";
    case PITVORGAS_COMMAND_SWAP: return "swap";
    case PITVORGAS_COMMAND_JUMP: return "jump";
    default: return "unknown";
    }
}

/* A parameter, by its key. */
static inline const char *pitvorgas_parameter_text(size_t number) {
    switch (number) {
    case PITVORGAS_KEY_COERCE: return "coerce";
    case PITVORGAS_KEY_URI: return "URI";
    case PITVORGAS_KEY_SOURCE: return "source";
    case PITVORGAS_KEY_DIGEST: return "digest";
    case PITVORGAS_KEY_SIZE: return "size";
    default: return "unknown";
    }
}

/* A section of a manifest, by its key. */
static inline const char *pitvorgas_section_text(size_t number) {
    switch (number) {
    case PITVORGAS_SECTION_COMMON: return "common";
    case PITVORGAS_SECTION_PAYLOAD_FETCH: return "payload fetch";
    case PITVORGAS_SECTION_INSTALL: return "install";
    case PITVORGAS_SECTION_VALIDATE: return "validate";
    case PITVORGAS_SECTION_LOAD: return "load";
    case PITVORGAS_SECTION_RUN: return "run";
    default: return "unknown";
    }
}

/* The result of an event: success, or what an end is called. */
static inline const char *pitvorgas_result_text(size_t number) {
    return number == PITVORGAS_FINISHED ? "success" : pitvorgas_end_text(number);
}

#endif
