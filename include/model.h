/* The golden model as a static library: docs/c-interface.md.
 *
 * No state lives between two calls: a list of commands is a whole run of a store from its opening on. No pointer may be
 * null, also where its length is 0, and no two rows that a call is given may overlap. */
#ifndef MODEL_H
#define MODEL_H

#include <stddef.h>
#include <stdint.h>

#ifdef __cplusplus
extern "C" {
#endif

enum model_code {
    MODEL_START = 0,   /* start p */
    MODEL_LOAD = 1,    /* load p a */
    MODEL_STORE = 2,   /* store p a w */
    MODEL_SQUASH = 3,  /* squash p */
    MODEL_COMMIT = 4,  /* commit p */
    MODEL_REPLACE = 5, /* replace p a */
    MODEL_WORD = 6,    /* the memory's word at a */
    MODEL_TASKS = 7,   /* the number of active tasks */
    MODEL_LINE = 8,    /* line a of processor p, a from 0 to 15 */
    MODEL_REPORT = 9   /* the bus report of the latest accepted turn */
};

/* A field that a command does not have is not looked at. */
typedef struct {
    uint32_t code, p, a, w;
} model_command;

/* status 0: the numbers tell what was asked; 1 to 8: the refusal; MODEL_NOTHING: no such command or line, or no bus.
 *   a turn, word, tasks: first is the number
 *   line: first is the bit L, second the bit S, third the tag, fourth the word, fifth the pointer or MODEL_NO_POINTER
 *   report: kind, address, supplier, invalidations, words written back
 * Numbers that a reply does not have are 0. */
typedef struct {
    uint32_t status, first, second, third, fourth, fifth;
} model_reply;

#define MODEL_NOTHING 255
#define MODEL_NO_POINTER 4

/* Opens a store over the words, carries the commands out in their order, writes each reply at its command's place, and
 * closes the store; the words are then the memory's. Returns 0; or 17 where there is no word or more than 4,096; or 16
 * where there are fewer replies than commands. Where it is not 0, nothing has changed. The central buffer has no bus, so
 * that lines and reports of it are MODEL_NOTHING. */
uint32_t model_snooping(uint32_t *words, size_t word_count, const model_command *commands, size_t command_count,
                        model_reply *replies, size_t reply_count);
uint32_t model_central(uint32_t *words, size_t word_count, const model_command *commands, size_t command_count,
                       model_reply *replies, size_t reply_count);

/* Plays an image and a turn text as the programs play and central do, over 4,096 words that are 0, and writes the listing
 * into the caller's buffer. As the programs do, it looks at no more than the first 32,768 bytes of each. Returns the listing's
 * length, for every image and text; where that is above room, nothing is written. A listing has at least one line, so that 0 is
 * never returned, and at most 116,744 bytes. About 200 kilobytes of stack are used. No call allocates memory. */
size_t model_play_snooping(const uint8_t *image, size_t image_length, const uint8_t *text, size_t text_length,
                           uint8_t *listing, size_t room);
size_t model_play_central(const uint8_t *image, size_t image_length, const uint8_t *text, size_t text_length,
                          uint8_t *listing, size_t room);

#ifdef __cplusplus
}
#endif

#endif
