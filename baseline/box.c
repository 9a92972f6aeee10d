/* A vacuum controller box on the mnemonics protocol: lines, settings, switching, streaming. */
#include "box.h"

#include <string.h>

enum { ETX = 3, ENQ = 5, ACK = 6, LF = 10, CR = 13, NAK = 21, DEL = 127 };

/* Digits of the error word; 1000 never arises here. */
enum { NO_FAULT = 0, SYNTAX = 1, INADMISSIBLE = 2, NO_HARDWARE = 4 };

enum { STATUS_OK = 0, STATUS_NO_SENSOR = 5, STATUS_NO_ID = 6 };

enum { KIND_NO_SENSOR = 6, KIND_NO_ID = 7, KINDS = 9 };

enum { UNIT_MBAR, UNIT_TORR, UNIT_PA, UNIT_MICRON, UNIT_HPA };

enum { ASSIGNED_ON = 1 };

/* A 361 and a 362 differ only in their channels and their names; a 262 is of another family. */
enum family { TPG_36X, TPG_26X, FAMILIES };

/* Settings come first and in the order of the sheets, so that one's mnemonic is also its cell. */
enum mnemonic {
    UNI, FIL, CAL, DCD, SP1, SP2, SP3, SP4, ERA, EVA, FMT, LNG, NAD, PRE, PRO, PUC, DCS,
    DIC, SCT, WDT, TLC, LOC,
    CF1, CF2, SPS, PR1, PR2, PRX, TID, AYT, PNR, ERR, COM, SAV,
    NONE
};

enum form { WHOLE, FACTOR, THRESHOLD };

enum { PER_CHANNEL = 255, UNKNOWN = 254, FIELDS_MAX = 3 };

/* What a family takes in a mnemonic's fields, and what it begins with. */
struct limits {
    uint8_t fields;             /* how many a line with fields must have */
    uint16_t low, high;
    uint16_t preset;
};

struct rule {
    char name[4];
    uint8_t form;               /* of the first field, and of a channel's */
    uint8_t needs_channel_2;    /* the value that does, 0 when none */
    struct limits limits[FAMILIES];
};

/* A setting that a family lacks has its default there too. */
static const struct rule rules[NONE] = {
    [UNI] = { "UNI", WHOLE, 0, { { 1, 0, 4, UNIT_HPA }, { 1, 0, 2, UNIT_MBAR } } },
    [FIL] = { "FIL", WHOLE, 0, { { PER_CHANNEL, 0, 3, 2 }, { PER_CHANNEL, 0, 2, 1 } } },
    [CAL] = { "CAL", FACTOR, 0,
              { { PER_CHANNEL, 100, 10000, 1000 }, { PER_CHANNEL, 100, 9990, 1000 } } },
    [DCD] = { "DCD", WHOLE, 0, { { PER_CHANNEL, 0, 4, 0 }, { 1, 2, 3, 2 } } },
    [SP1] = { "SP1", WHOLE, 3, { { 3, 0, 3, 0 }, { 3, 0, 1, 0 } } },
    [SP2] = { "SP2", WHOLE, 3, { { 3, 0, 3, 0 }, { 3, 0, 1, 0 } } },
    [SP3] = { "SP3", WHOLE, 3, { { 3, 0, 3, 0 }, { 3, 0, 1, 0 } } },
    [SP4] = { "SP4", WHOLE, 3, { { 3, 0, 3, 0 }, { 3, 0, 1, 0 } } },
    [ERA] = { "ERA", WHOLE, 3, { { 1, 0, 3, 0 }, { UNKNOWN, 0, 0, 0 } } },
    [EVA] = { "EVA", WHOLE, 0, { { 1, 0, 1, 0 }, { UNKNOWN, 0, 0, 0 } } },
    [FMT] = { "FMT", WHOLE, 0, { { 1, 0, 1, 0 }, { UNKNOWN, 0, 0, 0 } } },
    [LNG] = { "LNG", WHOLE, 0, { { 1, 0, 2, 0 }, { UNKNOWN, 0, 0, 0 } } },
    [NAD] = { "NAD", WHOLE, 0, { { 1, 1, 24, 1 }, { UNKNOWN, 0, 0, 1 } } },
    [PRE] = { "PRE", WHOLE, 0, { { 1, 0, 1, 0 }, { UNKNOWN, 0, 0, 0 } } },
    [PRO] = { "PRO", WHOLE, 0, { { 1, 0, 2, 0 }, { UNKNOWN, 0, 0, 0 } } },
    [PUC] = { "PUC", WHOLE, 0, { { 1, 0, 1, 0 }, { PER_CHANNEL, 0, 1, 0 } } },
    [DCS] = { "DCS", WHOLE, 0, { { 1, 0, 6, 0 }, { UNKNOWN, 0, 0, 0 } } },
    [DIC] = { "DIC", WHOLE, 0, { { UNKNOWN, 0, 0, 0 }, { 1, 0, 1, 0 } } },
    [SCT] = { "SCT", WHOLE, 0, { { UNKNOWN, 0, 0, 0 }, { 1, 0, 1, 0 } } },
    [WDT] = { "WDT", WHOLE, 0, { { UNKNOWN, 0, 0, 1 }, { 1, 0, 1, 1 } } },
    [TLC] = { "TLC", WHOLE, 0, { { UNKNOWN, 0, 0, 0 }, { 1, 0, 1, 0 } } },
    [LOC] = { "LOC", WHOLE, 0, { { UNKNOWN, 0, 0, 0 }, { 1, 0, 1, 0 } } },
    [CF1] = { "CF1", FACTOR, 0, { { 1, 100, 10000, 0 }, { UNKNOWN, 0, 0, 0 } } },
    [CF2] = { "CF2", FACTOR, 0, { { 1, 100, 10000, 0 }, { UNKNOWN, 0, 0, 0 } } },
    [SPS] = { "SPS", WHOLE, 0, { { 0, 0, 0, 0 }, { 0, 0, 0, 0 } } },
    [PR1] = { "PR1", WHOLE, 0, { { 0, 0, 0, 0 }, { 0, 0, 0, 0 } } },
    [PR2] = { "PR2", WHOLE, 0, { { 0, 0, 0, 0 }, { 0, 0, 0, 0 } } },
    [PRX] = { "PRX", WHOLE, 0, { { 0, 0, 0, 0 }, { 0, 0, 0, 0 } } },
    [TID] = { "TID", WHOLE, 0, { { 0, 0, 0, 0 }, { 0, 0, 0, 0 } } },
    [AYT] = { "AYT", WHOLE, 0, { { 0, 0, 0, 0 }, { UNKNOWN, 0, 0, 0 } } },
    [PNR] = { "PNR", WHOLE, 0, { { UNKNOWN, 0, 0, 0 }, { 0, 0, 0, 0 } } },
    [ERR] = { "ERR", WHOLE, 0, { { 0, 0, 0, 0 }, { 0, 0, 0, 0 } } },
    [COM] = { "COM", WHOLE, 0, { { 1, 0, 2, 1 }, { 1, 0, 2, 1 } } },
    [SAV] = { "SAV", WHOLE, 0, { { 1, 0, 1, 0 }, { 1, 0, 1, 0 } } }
};

struct box_model {
    uint16_t number;
    uint8_t channels;
    uint8_t family;
    uint8_t channel_1;          /* the assignment to it; those below are off and on */
    const char *identity;       /* how AYT begins, where it is known */
};

static const struct box_model models[] = {
    { 361, 1, TPG_36X, 2, "TPG361,PTG28040," },
    { 362, 2, TPG_36X, 2, "TPG362,PTG28290," },
    { 262, 2, TPG_26X, 0, NULL }
};

/* How many of the unit are one hPa: a fraction and a power of ten. */
struct unit {
    uint16_t times, over;
    int8_t power;
};

/* 760 Torr are 101325 Pa, and a thousand micron are one Torr. */
static const struct unit units[] = {
    [UNIT_MBAR] = { 1, 1, 0 },
    [UNIT_TORR] = { 3040, 4053, 0 },
    [UNIT_PA] = { 1, 1, 2 },
    [UNIT_MICRON] = { 3040, 4053, 3 },
    [UNIT_HPA] = { 1, 1, 0 }
};

static const uint16_t stream_interval[] = { 1, 10, 600 };

/* A kind without a name is not of the family. */
static const char *const kind_name[FAMILIES][KINDS] = {
    [TPG_36X] = { "TPR/PCR", "IKR", "PKR", "PBR", "IMR", "CMR/APR", "noSEn", "noid", NULL },
    [TPG_26X] = { "TPR", "IKR9", "PKR", "PBR", "IMR", "CMR", "noSEn", "noid", "IKR11" }
};

static const struct box_number preset_lower = { 10000, -9 };
static const struct box_number preset_upper = { 90000, -7 };

static const struct box_number least_threshold = { 10000, -20 };
static const struct box_number greatest_threshold = { 99999, 20 };

static const struct box_reading no_reading = { KIND_NO_SENSOR, STATUS_NO_SENSOR, { 0, 0 } };

/* What a channel without a sensor shows, in hPa. */
static const struct box_number no_sensor_hpa = { 20000, -2 };

/* ---- Rules of a model ---- */

static const struct limits *limits_of(const struct box *box, enum mnemonic mnemonic)
{
    return &rules[mnemonic].limits[box->model->family];
}

static int wanted_fields(const struct box *box, enum mnemonic mnemonic)
{
    uint8_t fields = limits_of(box, mnemonic)->fields;

    return fields == PER_CHANNEL ? box->model->channels : fields;
}

static const char *name_of_kind(const struct box *box, uint8_t kind)
{
    return kind < KINDS ? kind_name[box->model->family][kind] : NULL;
}

/* ---- Start ---- */

static void set_defaults(struct box_settings *settings, unsigned family)
{
    for (int setting = 0; setting < BOX_SETTINGS; setting++)
        for (int channel = 0; channel < BOX_CHANNELS; channel++)
            settings->cell[setting][channel] = rules[setting].limits[family].preset;
    for (int i = 0; i < BOX_SWITCHES; i++) {
        settings->lower[i] = preset_lower;
        settings->upper[i] = preset_upper;
    }
}

static void clear_line(struct box *box)
{
    box->line_length = 0;
    box->bad_line = false;
}

static void start_stream(struct box *box, unsigned mode)
{
    box->interval = stream_interval[mode];
    box->tick_count = 0;
}

/* On without a reading is only what is assigned so, which a 262 cannot be. */
static void reset_switch(struct box *box, int i)
{
    uint16_t assignment = box->settings.cell[SP1 + i][0];

    box->switch_on[i] = assignment < box->model->channel_1 && assignment == ASSIGNED_ON;
}

void box_power_cycle(struct box *box)
{
    box->settings = box->saved;
    clear_line(box);
    box->after_cr = false;
    box->selection = NONE;
    box->error_word = NO_FAULT;
    for (int channel = 0; channel < BOX_CHANNELS; channel++)
        box->reading[channel] = no_reading;
    for (int i = 0; i < BOX_SWITCHES; i++)
        reset_switch(box, i);
    start_stream(box, 1);
}

static const struct box_model *find_model(unsigned number)
{
    for (size_t i = 0; i < sizeof models / sizeof models[0]; i++)
        if (models[i].number == number)
            return &models[i];
    return NULL;
}

enum box_answer box_fresh(struct box *box, unsigned model, uint32_t serial)
{
    const struct box_model *found = find_model(model);
    bool good = found != NULL && serial <= BOX_SERIAL_MAX;

    box->model = good ? found : find_model(361);
    box->serial = good ? serial : 0;
    set_defaults(&box->saved, box->model->family);
    box_power_cycle(box);
    return good ? BOX_DONE : BOX_BAD_MODEL_OR_SERIAL;
}

/* ---- Numbers and units ---- */

/* Value over divisor times a power of ten, to five digits, half upwards; zero stays zero. */
static struct box_number round_to_five(uint64_t value, uint64_t divisor, int32_t power)
{
    struct box_number number = { 0, power + 4 };

    if (value == 0)
        return number;
    while (value < 10000 * divisor) {
        value *= 10;
        number.exponent--;
    }
    while (value / divisor > 99999) {
        divisor *= 10;
        number.exponent++;
    }
    value = (value + divisor / 2) / divisor;
    if (value > 99999) {
        value = 10000;
        number.exponent++;
    }
    number.mantissa = (int32_t)value;
    return number;
}

/* Rounds once, from the exact factor between the two units; only the magnitude is rounded. */
static struct box_number in_unit(struct box_number number, unsigned from, unsigned to)
{
    const struct unit *old = &units[from];
    const struct unit *new = &units[to];
    bool minus = number.mantissa < 0;
    uint64_t magnitude = (uint64_t)(minus ? -number.mantissa : number.mantissa);

    number = round_to_five(magnitude * old->over * new->times,
                           (uint64_t)old->times * new->over,
                           number.exponent - 4 + new->power - old->power);
    if (minus)
        number.mantissa = -number.mantissa;
    return number;
}

/* Beyond an end stop it is held there, so going back does not restore it. */
static struct box_number threshold_in_unit(struct box_number threshold, unsigned from,
                                           unsigned to)
{
    threshold = in_unit(threshold, from, to);
    if (threshold.exponent < least_threshold.exponent)
        return least_threshold;
    if (threshold.exponent > greatest_threshold.exponent)
        return greatest_threshold;
    return threshold;
}

/* ---- Shown values and switching ---- */

/* The value as PRx and the stream send it, in the present unit. */
static struct box_number shown_value(const struct box *box, const struct box_reading *reading)
{
    struct box_number value = reading->status == STATUS_NO_SENSOR ? no_sensor_hpa : reading->hpa;

    if (value.mantissa == 0)
        return value;
    return in_unit(value, UNIT_HPA, box->settings.cell[UNI][0]);
}

/* Below, at or above: -1, 0, 1; a threshold is positive, so zero and negative lie below. */
static int compare(struct box_number value, struct box_number threshold)
{
    if (value.mantissa <= 0)
        return -1;
    if (value.exponent != threshold.exponent)
        return value.exponent < threshold.exponent ? -1 : 1;
    return (value.mantissa > threshold.mantissa) - (value.mantissa < threshold.mantissa);
}

static void switch_by_reading(struct box *box, unsigned channel)
{
    const struct box_reading *reading = &box->reading[channel];
    struct box_number value = shown_value(box, reading);

    for (int i = 0; i < BOX_SWITCHES; i++) {
        if (box->settings.cell[SP1 + i][0] != box->model->channel_1 + channel)
            continue;
        if (reading->status != STATUS_OK)
            box->switch_on[i] = false;
        else if (compare(value, box->settings.lower[i]) < 0)
            box->switch_on[i] = true;
        else if (compare(value, box->settings.upper[i]) > 0)
            box->switch_on[i] = false;
    }
}

static bool reading_within_limits(const struct box *box, const struct box_reading *reading)
{
    int32_t mantissa = reading->hpa.mantissa;
    int32_t exponent = reading->hpa.exponent;

    if (name_of_kind(box, reading->kind) == NULL || reading->status > STATUS_NO_ID)
        return false;
    if ((reading->status == STATUS_NO_SENSOR) != (reading->kind == KIND_NO_SENSOR))
        return false;
    if ((reading->status == STATUS_NO_ID) != (reading->kind == KIND_NO_ID))
        return false;
    if (mantissa == 0)
        return exponent == 0;
    if (reading->status == STATUS_NO_SENSOR)
        return false;
    if (mantissa < -99999 || mantissa > 99999 || (mantissa > -10000 && mantissa < 10000))
        return false;
    return exponent >= -20 && exponent <= 20;
}

enum box_answer box_take_reading(struct box *box, unsigned channel,
                                 const struct box_reading *reading)
{
    if (channel < 1 || channel > box->model->channels)
        return BOX_NO_SUCH_CHANNEL;
    if (!reading_within_limits(box, reading))
        return BOX_BAD_READING;
    box->reading[channel - 1] = *reading;
    switch_by_reading(box, channel - 1);
    return BOX_DONE;
}

/* ---- Replies; each function writes at a place and returns the place after ---- */

static uint8_t *put_text(uint8_t *at, const char *text)
{
    size_t length = strlen(text);

    memcpy(at, text, length);
    return at + length;
}

static uint8_t *put_byte(uint8_t *at, uint8_t byte)
{
    *at = byte;
    return at + 1;
}

static uint8_t *put_end(uint8_t *at)
{
    at = put_byte(at, CR);
    return put_byte(at, LF);
}

static uint8_t *put_digits(uint8_t *at, uint32_t value, int count)
{
    for (int i = count - 1; i >= 0; i--) {
        at[i] = (uint8_t)('0' + value % 10);
        value /= 10;
    }
    return at + count;
}

/* No whole number of the sheet has more than two digits. */
static uint8_t *put_whole(uint8_t *at, uint32_t value)
{
    return put_digits(at, value, value > 9 ? 2 : 1);
}

static uint8_t *put_factor(uint8_t *at, uint32_t thousandths)
{
    at = put_whole(at, thousandths / 1000);
    at = put_byte(at, '.');
    return put_digits(at, thousandths % 1000, 3);
}

/* d.ddddE, sign, two digits; a sign in front is the caller's. */
static uint8_t *put_magnitude(uint8_t *at, struct box_number number)
{
    bool minus_exponent = number.exponent < 0;
    int32_t mantissa = number.mantissa < 0 ? -number.mantissa : number.mantissa;

    at = put_digits(at, (uint32_t)mantissa / 10000, 1);
    at = put_byte(at, '.');
    at = put_digits(at, (uint32_t)mantissa % 10000, 4);
    at = put_byte(at, 'E');
    at = put_byte(at, minus_exponent ? '-' : '+');
    return put_digits(at, (uint32_t)(minus_exponent ? -number.exponent : number.exponent), 2);
}

static uint8_t *put_reading(const struct box *box, int channel, uint8_t *at)
{
    const struct box_reading *reading = &box->reading[channel];
    struct box_number value = shown_value(box, reading);

    at = put_whole(at, reading->status);
    at = put_byte(at, ',');
    at = put_byte(at, value.mantissa < 0 ? '-' : '+');
    return put_magnitude(at, value);
}

/* PRX and the stream: every channel that the model has. */
static uint8_t *put_all_readings(const struct box *box, uint8_t *at)
{
    at = put_reading(box, 0, at);
    if (box->model->channels == 2) {
        at = put_byte(at, ',');
        at = put_reading(box, 1, at);
    }
    return at;
}

static uint8_t *put_kinds(const struct box *box, uint8_t *at)
{
    at = put_text(at, name_of_kind(box, box->reading[0].kind));
    if (box->model->channels == 2) {
        at = put_byte(at, ',');
        at = put_text(at, name_of_kind(box, box->reading[1].kind));
    }
    return at;
}

/* A setting is answered with as many values as it takes. */
static uint8_t *put_setting(const struct box *box, enum mnemonic mnemonic, uint8_t *at)
{
    const uint16_t *cell = box->settings.cell[mnemonic];
    uint8_t *(*put)(uint8_t *, uint32_t) = mnemonic == CAL ? put_factor : put_whole;

    at = put(at, cell[0]);
    if (wanted_fields(box, mnemonic) == 2) {
        at = put_byte(at, ',');
        at = put(at, cell[1]);
    }
    return at;
}

static uint8_t *put_switching(const struct box_settings *settings, int i, uint8_t *at)
{
    at = put_whole(at, settings->cell[SP1 + i][0]);
    at = put_byte(at, ',');
    at = put_magnitude(at, settings->lower[i]);
    at = put_byte(at, ',');
    return put_magnitude(at, settings->upper[i]);
}

static uint8_t *put_switch_status(const struct box *box, uint8_t *at)
{
    for (int i = 0; i < BOX_SWITCHES; i++) {
        if (i > 0)
            at = put_byte(at, ',');
        at = put_byte(at, box->switch_on[i] ? '1' : '0');
    }
    return at;
}

static uint8_t *put_identity(const struct box *box, uint8_t *at)
{
    at = put_text(at, box->model->identity);
    at = put_digits(at, box->serial, 8);
    return put_text(at, ",010100,010100");
}

/* Sending the error word makes it 0000. */
static uint8_t *put_error_word(struct box *box, uint8_t *at)
{
    at = put_byte(at, '0');
    at = put_byte(at, box->error_word & NO_HARDWARE ? '1' : '0');
    at = put_byte(at, box->error_word & INADMISSIBLE ? '1' : '0');
    at = put_byte(at, box->error_word & SYNTAX ? '1' : '0');
    box->error_word = NO_FAULT;
    return at;
}

static uint8_t *put_selected(struct box *box, uint8_t *at)
{
    enum mnemonic selected = (enum mnemonic)box->selection;

    switch (selected) {
    case CF1: case CF2:
        return put_setting(box, CAL, at);
    case SP1: case SP2: case SP3: case SP4:
        return put_switching(&box->settings, (int)selected - SP1, at);
    case SPS:
        return put_switch_status(box, at);
    case PR1: case PR2:
        return put_reading(box, (int)selected - PR1, at);
    case PRX:
        return put_all_readings(box, at);
    case TID:
        return put_kinds(box, at);
    case AYT:
        return put_identity(box, at);
    case PNR:
        return put_text(at, "302-510--");
    case ERR: case NONE:
        return put_error_word(box, at);
    default:
        return put_setting(box, selected, at);
    }
}

/* ---- Forms of the fields; each is read from at up to end and must fill it ---- */

/* Goes on from the value at hand, at most so many digits; returns the place after them. */
static const char *read_digits(const char *at, const char *end, ptrdiff_t most, uint64_t *value)
{
    if (end - at > most)
        end = at + most;
    while (at < end && *at >= '0' && *at <= '9') {
        *value = *value * 10 + (uint64_t)(*at - '0');
        at++;
    }
    return at;
}

static bool read_whole(const char *at, const char *end, struct box_number *number)
{
    uint64_t value = 0;
    const char *after = read_digits(at, end, 3, &value);

    number->mantissa = (int32_t)value;
    return after > at && after == end;
}

static bool read_factor(const char *at, const char *end, struct box_number *number)
{
    uint64_t value = 0;
    const char *point = read_digits(at, end, 2, &value);
    ptrdiff_t decimals = 0;

    if (point == at || (point < end && *point != '.'))
        return false;
    if (point < end) {
        const char *after = read_digits(point + 1, end, 3, &value);
        decimals = after - (point + 1);
        if (decimals == 0 || after != end)
            return false;
    }
    for (; decimals < 3; decimals++)
        value *= 10;
    number->mantissa = (int32_t)value;
    return true;
}

/* E, an optional sign and one or two digits; nothing at all is an exponent of 0. */
static bool read_exponent(const char *at, const char *end, int32_t *exponent)
{
    uint64_t value = 0;
    bool minus = false;

    *exponent = 0;
    if (at == end)
        return true;
    if (*at++ != 'E')
        return false;
    if (at < end && (*at == '+' || *at == '-'))
        minus = *at++ == '-';
    const char *after = read_digits(at, end, 2, &value);
    *exponent = minus ? -(int32_t)value : (int32_t)value;
    return after > at && after == end;
}

static bool read_threshold(const char *at, const char *end, struct box_number *number)
{
    const ptrdiff_t most = 12;
    uint64_t value = 0;
    int32_t exponent;

    if (at < end && *at == '+')
        at++;
    const char *after = read_digits(at, end, most, &value);
    ptrdiff_t digits = after - at;
    ptrdiff_t decimals = 0;
    if (after < end && *after == '.') {
        const char *fraction = after + 1;
        after = read_digits(fraction, end, most - digits, &value);
        decimals = after - fraction;
    }
    if (digits + decimals == 0 || !read_exponent(after, end, &exponent))
        return false;
    *number = round_to_five(value, 1, exponent - (int32_t)decimals);
    return true;
}

/* ---- Lines ---- */

/* Of SPx the second and third fields are thresholds. */
static enum form form_of_field(enum mnemonic mnemonic, int field)
{
    if (mnemonic >= SP1 && mnemonic <= SP4 && field > 0)
        return THRESHOLD;
    return (enum form)rules[mnemonic].form;
}

/* A bad line holds nothing, so it is as unknown as an empty or a short one. */
static enum mnemonic find_mnemonic(const struct box *box)
{
    if (box->line_length < 3 || (box->line_length > 3 && box->line[3] != ','))
        return NONE;
    for (int mnemonic = 0; mnemonic < NONE; mnemonic++)
        if (memcmp(box->line, rules[mnemonic].name, 3) == 0 &&
            limits_of(box, (enum mnemonic)mnemonic)->fields != UNKNOWN)
            return (enum mnemonic)mnemonic;
    return NONE;
}

/* Every field stands after a comma, an empty one too. */
static int count_fields(const struct box *box)
{
    int fields = 0;

    for (int i = 3; i < box->line_length; i++)
        fields += box->line[i] == ',';
    return fields;
}

static bool read_fields(const struct box *box, enum mnemonic mnemonic, int fields,
                        struct box_number *value)
{
    const char *line_end = box->line + box->line_length;
    const char *at = box->line + 3;

    for (int field = 0; field < fields; field++) {
        const char *start = at + 1;
        bool good = false;
        for (at = start; at < line_end && *at != ','; at++)
            ;
        switch (form_of_field(mnemonic, field)) {
        case WHOLE:
            good = read_whole(start, at, &value[field]);
            break;
        case FACTOR:
            good = read_factor(start, at, &value[field]);
            break;
        case THRESHOLD:
            good = read_threshold(start, at, &value[field]);
            break;
        }
        if (!good)
            return false;
    }
    return true;
}

static uint8_t check_value(const struct box *box, enum mnemonic mnemonic, int field,
                           struct box_number value)
{
    const struct limits *limits = limits_of(box, mnemonic);
    uint8_t needs_channel_2 = rules[mnemonic].needs_channel_2;

    if (form_of_field(mnemonic, field) == THRESHOLD) {
        bool good = value.mantissa != 0 && value.exponent >= least_threshold.exponent &&
                    value.exponent <= greatest_threshold.exponent;
        return good ? NO_FAULT : INADMISSIBLE;
    }
    if (value.mantissa < limits->low || value.mantissa > limits->high)
        return INADMISSIBLE;
    if (box->model->channels == 1 && needs_channel_2 != 0 && value.mantissa == needs_channel_2)
        return NO_HARDWARE;
    return NO_FAULT;
}

/* Switch statuses wait for the next reading; the saved set has a unit of its own. */
static void set_unit(struct box_settings *settings, uint16_t unit)
{
    uint16_t old = settings->cell[UNI][0];

    for (int i = 0; i < BOX_SWITCHES; i++) {
        settings->lower[i] = threshold_in_unit(settings->lower[i], old, unit);
        settings->upper[i] = threshold_in_unit(settings->upper[i], old, unit);
    }
    settings->cell[UNI][0] = unit;
}

static void set_switching(struct box *box, int i, const struct box_number *value)
{
    box->settings.cell[SP1 + i][0] = (uint16_t)value[0].mantissa;
    box->settings.lower[i] = value[1];
    box->settings.upper[i] = value[2];
    reset_switch(box, i);
}

static void save(struct box *box, bool present)
{
    if (present)
        box->saved = box->settings;
    else
        set_defaults(&box->saved, box->model->family);
}

/* Nothing is stored before the whole line has been checked. */
static void store_fields(struct box *box, enum mnemonic mnemonic, int fields,
                         const struct box_number *value)
{
    switch (mnemonic) {
    case UNI:
        set_unit(&box->settings, (uint16_t)value[0].mantissa);
        break;
    case SP1: case SP2: case SP3: case SP4:
        set_switching(box, (int)mnemonic - SP1, value);
        break;
    case CF1: case CF2:
        box->settings.cell[CAL][mnemonic - CF1] = (uint16_t)value[0].mantissa;
        break;
    default:
        for (int field = 0; field < fields; field++)
            box->settings.cell[mnemonic][field] = (uint16_t)value[field].mantissa;
        break;
    }
}

/* Of the lines without fields only COM and SAV do something, by their defaults. */
static void obey(struct box *box, enum mnemonic mnemonic, int fields,
                 const struct box_number *value)
{
    box->selection = (uint8_t)mnemonic;
    if (mnemonic == COM || mnemonic == SAV) {
        int32_t choice = fields == 0 ? limits_of(box, mnemonic)->preset : value[0].mantissa;
        box->selection = NONE;
        if (mnemonic == COM)
            start_stream(box, (unsigned)choice);
        else
            save(box, choice == 1);
    } else if (fields > 0) {
        store_fields(box, mnemonic, fields, value);
    }
}

/* Checks in the paper's order, and the first fault decides. */
static uint8_t judge_line(struct box *box)
{
    struct box_number value[FIELDS_MAX];
    enum mnemonic mnemonic = find_mnemonic(box);

    if (mnemonic == NONE)
        return SYNTAX;
    if (box->model->channels == 1 && (mnemonic == PR2 || mnemonic == CF2))
        return NO_HARDWARE;
    int fields = count_fields(box);
    if (fields != 0 && fields != wanted_fields(box, mnemonic))
        return SYNTAX;
    if (!read_fields(box, mnemonic, fields, value))
        return SYNTAX;
    for (int field = 0; field < fields; field++) {
        uint8_t fault = check_value(box, mnemonic, field, value[field]);
        if (fault != NO_FAULT)
            return fault;
    }
    obey(box, mnemonic, fields, value);
    return NO_FAULT;
}

/* ---- Bytes from the host and ticks ---- */

static uint8_t *end_line(struct box *box, uint8_t *at)
{
    uint8_t fault = judge_line(box);

    clear_line(box);
    if (fault != NO_FAULT) {
        box->error_word |= fault;
        box->selection = NONE;
    }
    at = put_byte(at, fault == NO_FAULT ? ACK : NAK);
    return put_end(at);
}

/* On a line that is not empty the enquiry is without a valid request. */
static uint8_t *answer_enquiry(struct box *box, uint8_t *at)
{
    if (box->line_length > 0 || box->bad_line) {
        clear_line(box);
        box->selection = NONE;
    }
    at = put_selected(box, at);
    return put_end(at);
}

static void add_to_line(struct box *box, uint8_t byte)
{
    if (byte < ' ' || byte >= DEL || box->line_length == BOX_LINE_MAX) {
        box->bad_line = true;
        box->line_length = 0;
    }
    if (!box->bad_line)
        box->line[box->line_length++] = (char)byte;
}

static uint8_t *take_byte(struct box *box, uint8_t byte, uint8_t *at)
{
    bool after_cr = box->after_cr;

    box->after_cr = byte == CR;
    if (byte == LF && after_cr)
        return at;
    box->interval = 0;
    box->tick_count = 0;
    switch (byte) {
    case LF: case ' ':
        return at;
    case CR:
        return end_line(box, at);
    case ENQ:
        return answer_enquiry(box, at);
    case ETX:
        clear_line(box);
        box->selection = NONE;
        return at;
    default:
        add_to_line(box, byte);
        return at;
    }
}

enum box_answer box_take_bytes(struct box *box, const uint8_t *input, size_t length,
                               uint8_t *output, size_t room,
                               size_t *taken, size_t *written)
{
    uint8_t *at = output;
    size_t i = 0;

    *taken = 0;
    *written = 0;
    if (room < BOX_OUTPUT_FREE)
        return BOX_SHORT_OUTPUT;
    for (; i < length && room - (size_t)(at - output) >= BOX_OUTPUT_FREE; i++)
        at = take_byte(box, input[i], at);
    *taken = i;
    *written = (size_t)(at - output);
    return BOX_DONE;
}

enum box_answer box_take_tick(struct box *box, uint8_t *output, size_t room, size_t *written)
{
    *written = 0;
    if (room < BOX_OUTPUT_FREE)
        return BOX_SHORT_OUTPUT;
    if (box->interval == 0 || ++box->tick_count < box->interval)
        return BOX_DONE;
    box->tick_count = 0;
    *written = (size_t)(put_end(put_all_readings(box, output)) - output);
    return BOX_DONE;
}
