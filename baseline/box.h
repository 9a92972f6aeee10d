/* A vacuum controller box: one channel (361) or two (362, 262), spoken to in mnemonics. */
#ifndef BOX_H
#define BOX_H

#include <stdbool.h>
#include <stddef.h>
#include <stdint.h>

/* The answer numbers of the calls; 1 is missing because the state is private to the box. */
enum box_answer {
    BOX_DONE = 0,
    BOX_BAD_MODEL_OR_SERIAL = 2,
    BOX_SHORT_OUTPUT = 3,
    BOX_NO_SUCH_CHANNEL = 4,
    BOX_BAD_READING = 5
};

enum {
    BOX_OUTPUT_FREE = 64,       /* a byte is taken only while this much output is free */
    BOX_SERIAL_MAX = 99999999,
    BOX_LINE_MAX = 80,
    BOX_CHANNELS = 2,
    BOX_SWITCHES = 4,
    BOX_SETTINGS = 22           /* of all models; the sheet of each has only some */
};

/* d.dddd times a power of ten: the mantissa is 0 or of magnitude 10000 to 99999. */
struct box_number {
    int32_t mantissa;
    int32_t exponent;
};

struct box_reading {
    uint8_t kind;               /* 0 to 7, on a 262 to 8, in the order of the TID names */
    uint8_t status;             /* 0 to 6 */
    struct box_number hpa;
};

/* A factor is in thousandths, SPx's cell is its assignment; cells a model lacks never change. */
struct box_settings {
    uint16_t cell[BOX_SETTINGS][BOX_CHANNELS];
    struct box_number lower[BOX_SWITCHES];
    struct box_number upper[BOX_SWITCHES];
};

/* Here so that callers can reserve the room; its members are for box.c only. */
struct box {
    const struct box_model *model;
    uint32_t serial;
    uint8_t selection;          /* mnemonic that ENQ answers */
    uint8_t error_word;         /* one bit for each digit of the word */
    bool after_cr;              /* the last host byte was a CR */
    bool bad_line;
    uint8_t line_length;
    char line[BOX_LINE_MAX];
    uint16_t interval;          /* ticks between two stream lines, 0 when not streaming */
    uint16_t tick_count;
    bool switch_on[BOX_SWITCHES];
    struct box_reading reading[BOX_CHANNELS];
    struct box_settings settings;
    struct box_settings saved;
};

/* Makes a fresh 361, 362 or 262; on answer 2 it is a fresh 361 with serial 0. */
enum box_answer box_fresh(struct box *box, unsigned model, uint32_t serial);

/* Takes host bytes while any remain and 64 output bytes are free before the byte. */
enum box_answer box_take_bytes(struct box *box, const uint8_t *input, size_t length,
                               uint8_t *output, size_t room,
                               size_t *taken, size_t *written);

/* Takes a gauge reading for channel 1 or 2. */
enum box_answer box_take_reading(struct box *box, unsigned channel,
                                 const struct box_reading *reading);

/* Takes one tick of 100 ms. */
enum box_answer box_take_tick(struct box *box, uint8_t *output, size_t room, size_t *written);

/* Starts the box again with its saved set. */
void box_power_cycle(struct box *box);

#endif
