/* Bench program: one frame a line in, one answer a line out, all in upper-case hexadecimal. */
/* cc -std=c99 -O2 -Wall -Wextra -o bench bench.c box.c */
#include "box.h"

#include <stdio.h>
#include <stdlib.h>

enum {
    ANSWER_BAD_FRAME = 0xFF,
    FRAME_MAX = 61,             /* the kind byte and up to 60 host bytes */
    SENT_MAX = 8192,            /* 255 stream lines of 29 bytes, and 64 free before the last */
    BLOCK = 65536
};

struct bench {
    struct box box;
    size_t digits;              /* of the frame so far */
    bool malformed;             /* a frame of other form, whatever follows */
    bool write_failed;
    uint8_t frame[FRAME_MAX];
    uint8_t sent[SENT_MAX];
    size_t text_length;
    char text[BLOCK];
};

/* One more than the value of the digit; 0 for any other character. */
static const uint8_t digit_value[256] = {
    ['0'] = 1, ['1'] = 2, ['2'] = 3, ['3'] = 4, ['4'] = 5, ['5'] = 6, ['6'] = 7, ['7'] = 8,
    ['8'] = 9, ['9'] = 10, ['A'] = 11, ['B'] = 12, ['C'] = 13, ['D'] = 14, ['E'] = 15, ['F'] = 16
};

static const char digit_name[] = "0123456789ABCDEF";

/* The model that a byte names; 0 is none. */
static const uint16_t model_number[256] = { [1] = 361, [2] = 362, [3] = 262 };

static unsigned run_host_bytes(struct bench *bench, size_t length, size_t *sent)
{
    size_t taken;

    return box_take_bytes(&bench->box, bench->frame + 1, length - 1,
                          bench->sent, SENT_MAX, &taken, sent);
}

static unsigned run_reading(struct bench *bench)
{
    const uint8_t *frame = bench->frame;
    int32_t magnitude = (int32_t)frame[5] << 16 | (int32_t)frame[6] << 8 | frame[7];
    struct box_reading reading = { frame[2], frame[3], { magnitude, frame[8] } };

    if (frame[4] > 1)
        return ANSWER_BAD_FRAME;
    if (frame[4] == 1)
        reading.hpa.mantissa = -magnitude;
    if (frame[8] > 127)
        reading.hpa.exponent -= 256;
    return box_take_reading(&bench->box, frame[1], &reading);
}

static unsigned run_ticks(struct bench *bench, size_t *sent)
{
    for (unsigned tick = 0; tick < bench->frame[1]; tick++) {
        size_t written;
        box_take_tick(&bench->box, bench->sent + *sent, SENT_MAX - *sent, &written);
        *sent += written;
    }
    return BOX_DONE;
}

/* A refused model keeps the box as it is. */
static unsigned run_fresh(struct bench *bench)
{
    struct box fresh;
    unsigned answer = box_fresh(&fresh, model_number[bench->frame[1]], 0);

    if (answer == BOX_DONE)
        bench->box = fresh;
    return answer;
}

static unsigned run_frame(struct bench *bench, size_t *sent)
{
    size_t length = bench->digits / 2;

    if (bench->malformed || bench->digits == 0 || bench->digits % 2 != 0)
        return ANSWER_BAD_FRAME;
    if (bench->frame[0] == 1)
        return run_host_bytes(bench, length, sent);
    if (bench->frame[0] == 2 && length == 9)
        return run_reading(bench);
    if (bench->frame[0] == 3 && length == 2)
        return run_ticks(bench, sent);
    if (bench->frame[0] == 4 && length == 2)
        return run_fresh(bench);
    if (bench->frame[0] == 5 && length == 1) {
        box_power_cycle(&bench->box);
        return BOX_DONE;
    }
    return ANSWER_BAD_FRAME;
}

static void flush_text(struct bench *bench)
{
    if (fwrite(bench->text, 1, bench->text_length, stdout) != bench->text_length)
        bench->write_failed = true;
    bench->text_length = 0;
}

static char *put_hex(char *at, unsigned byte)
{
    at[0] = digit_name[byte >> 4];
    at[1] = digit_name[byte & 15];
    return at + 2;
}

static void end_frame(struct bench *bench)
{
    size_t sent = 0;
    unsigned answer = run_frame(bench, &sent);
    char *at;

    if (BLOCK - bench->text_length < 2 + 2 * sent + 1)
        flush_text(bench);
    at = put_hex(bench->text + bench->text_length, answer);
    for (size_t i = 0; i < sent; i++)
        at = put_hex(at, bench->sent[i]);
    *at++ = '\n';
    bench->text_length = (size_t)(at - bench->text);
    bench->digits = 0;
    bench->malformed = false;
}

/* A longer line than the longest frame is of other form, so its rest is not kept. */
static void add_digit(struct bench *bench, uint8_t character)
{
    unsigned value = digit_value[character];
    size_t place = bench->digits / 2;

    if (value == 0 || place == FRAME_MAX) {
        bench->malformed = true;
        return;
    }
    if (bench->digits % 2 == 0)
        bench->frame[place] = (uint8_t)((value - 1) << 4);
    else
        bench->frame[place] |= (uint8_t)(value - 1);
    bench->digits++;
}

static void take_block(struct bench *bench, const uint8_t *block, size_t length)
{
    for (size_t i = 0; i < length; i++) {
        if (block[i] == '\n')
            end_frame(bench);
        else
            add_digit(bench, block[i]);
    }
}

int main(void)
{
    struct bench bench;
    uint8_t block[BLOCK];
    size_t length;

    bench.digits = 0;
    bench.malformed = false;
    bench.write_failed = false;
    bench.text_length = 0;
    box_fresh(&bench.box, 362, 0);
    while ((length = fread(block, 1, sizeof block, stdin)) > 0)
        take_block(&bench, block, length);
    if (bench.digits > 0 || bench.malformed)
        end_frame(&bench);
    flush_text(&bench);
    if (fflush(stdout) != 0 || bench.write_failed || ferror(stdin))
        return EXIT_FAILURE;
    return EXIT_SUCCESS;
}
