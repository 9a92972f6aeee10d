/*
 * Writes seeded test frames for the bench program, one line of upper-case
 * hexadecimal a frame: generate SEED COUNT. The same seed gives the same
 * frames on every machine. Most frames are valid, so that the box gets deep
 * into its states; the others stand at a limit or just beyond it.
 */
#include <stdint.h>
#include <stdio.h>
#include <stdlib.h>
#include <string.h>

enum { ETX = 3, ENQ = 5, LF = 10, CR = 13 };
enum { HOST_BYTES = 1, READING, TICKS, FRESH_BOX, POWER_CYCLE };
enum { HOST_LIMIT = 60, LINE_LIMIT = 80, TEXT_LIMIT = 4096 };
enum { LONGEST_SHEET = 17, THRESHOLD_DIGITS = 12 };

#define COUNT(table) (sizeof(table) / sizeof((table)[0]))

/* At most one pick stands in a statement: C leaves the order of two open. */
#define PICK(table) ((table)[below(COUNT(table))])

struct text {
	size_t length;
	unsigned char bytes[TEXT_LIMIT];
};

struct decimal {
	int digits;
	int exponent;
};

struct reading {
	int channel;
	int kind;
	int status;
	int sign;
	struct decimal value;
};

enum form { NO_FIELD, WHOLE, FACTOR, SWITCHING };

struct mnemonic {
	const char *name;
	enum form form;
	int low;
	int high;
	int per_channel;
	int top_needs_channel_2;
};

/* A sheet comes first, in its order; a factor's limits are in thousandths. */
static const struct mnemonic of_a_36x[] = {
	{"UNI", WHOLE, 0, 4, 0, 0},        {"FIL", WHOLE, 0, 3, 1, 0},
	{"CAL", FACTOR, 100, 10000, 1, 0}, {"DCD", WHOLE, 0, 4, 1, 0},
	{"SP1", SWITCHING, 0, 3, 0, 1},    {"SP2", SWITCHING, 0, 3, 0, 1},
	{"SP3", SWITCHING, 0, 3, 0, 1},    {"SP4", SWITCHING, 0, 3, 0, 1},
	{"ERA", WHOLE, 0, 3, 0, 1},        {"EVA", WHOLE, 0, 1, 0, 0},
	{"FMT", WHOLE, 0, 1, 0, 0},        {"LNG", WHOLE, 0, 2, 0, 0},
	{"NAD", WHOLE, 1, 24, 0, 0},       {"PRE", WHOLE, 0, 1, 0, 0},
	{"PRO", WHOLE, 0, 2, 0, 0},        {"PUC", WHOLE, 0, 1, 0, 0},
	{"DCS", WHOLE, 0, 6, 0, 0},        {"CF1", FACTOR, 100, 10000, 0, 0},
	{"CF2", FACTOR, 100, 10000, 0, 0}, {"SPS", NO_FIELD, 0, 1, 0, 0},
	{"PR1", NO_FIELD, 0, 1, 0, 0},     {"PR2", NO_FIELD, 0, 1, 0, 0},
	{"PRX", NO_FIELD, 0, 1, 0, 0},     {"TID", NO_FIELD, 0, 1, 0, 0},
	{"AYT", NO_FIELD, 0, 1, 0, 0},     {"ERR", NO_FIELD, 0, 1, 0, 0},
	{"COM", WHOLE, 0, 2, 0, 0},        {"SAV", WHOLE, 0, 1, 0, 0},
};

static const struct mnemonic of_a_262[] = {
	{"UNI", WHOLE, 0, 2, 0, 0},        {"FIL", WHOLE, 0, 2, 1, 0},
	{"CAL", FACTOR, 100, 9990, 1, 0},  {"DCD", WHOLE, 2, 3, 0, 0},
	{"SP1", SWITCHING, 0, 1, 0, 0},    {"SP2", SWITCHING, 0, 1, 0, 0},
	{"SP3", SWITCHING, 0, 1, 0, 0},    {"SP4", SWITCHING, 0, 1, 0, 0},
	{"PUC", WHOLE, 0, 1, 1, 0},        {"DIC", WHOLE, 0, 1, 0, 0},
	{"SCT", WHOLE, 0, 1, 0, 0},        {"WDT", WHOLE, 0, 1, 0, 0},
	{"TLC", WHOLE, 0, 1, 0, 0},        {"LOC", WHOLE, 0, 1, 0, 0},
	{"SPS", NO_FIELD, 0, 1, 0, 0},     {"PR1", NO_FIELD, 0, 1, 0, 0},
	{"PR2", NO_FIELD, 0, 1, 0, 0},     {"PRX", NO_FIELD, 0, 1, 0, 0},
	{"TID", NO_FIELD, 0, 1, 0, 0},     {"PNR", NO_FIELD, 0, 1, 0, 0},
	{"ERR", NO_FIELD, 0, 1, 0, 0},     {"COM", WHOLE, 0, 2, 0, 0},
	{"SAV", WHOLE, 0, 1, 0, 0},
};

struct model {
	int channels;
	int channel_1; /* the assignment to it */
	size_t gauges;
	size_t sheet_length;
	size_t known;
	const struct mnemonic *mnemonics;
};

/* Each in the place of its byte in a frame, counted from 1. */
static const struct model models[] = {
	{1, 2, 6, 17, COUNT(of_a_36x), of_a_36x},
	{2, 2, 6, 17, COUNT(of_a_36x), of_a_36x},
	{2, 0, 7, 14, COUNT(of_a_262), of_a_262},
};

static uint64_t random_state;
static uint64_t frames_left;
static unsigned frames_of_this_box;

/* The present box's: it decides which lines and readings are valid. */
static const struct model *model = &models[1];

/* ---- Chance ---- */

/* splitmix64: small, and the same on every machine. */
static uint64_t next_random(void)
{
	uint64_t mixed = random_state += UINT64_C(0x9E3779B97F4A7C15);

	mixed = (mixed ^ (mixed >> 30)) * UINT64_C(0xBF58476D1CE4E5B9);
	mixed = (mixed ^ (mixed >> 27)) * UINT64_C(0x94D049BB133111EB);
	return mixed ^ (mixed >> 31);
}

static unsigned below(size_t limit)
{
	return (unsigned)((next_random() >> 33) % limit);
}

static int between(int low, int high)
{
	return low + (int)below((size_t)(high - low) + 1);
}

static int chance(unsigned percent)
{
	return below(100) < percent;
}

static const struct mnemonic *some_mnemonic(void)
{
	return &model->mnemonics[below(model->known)];
}

static const struct mnemonic *some_setting(void)
{
	return &model->mnemonics[below(model->sheet_length)];
}

/* ---- Texts ---- */

/* Only the length is set: clearing every text whole would take most time. */
static void begin(struct text *text)
{
	text->length = 0;
}

static void put(struct text *text, int byte)
{
	if (text->length < TEXT_LIMIT)
		text->bytes[text->length++] = (unsigned char)byte;
}

static void put_string(struct text *text, const char *string)
{
	while (*string != '\0')
		put(text, *string++);
}

static void put_repeated(struct text *text, int byte, int times)
{
	while (times-- > 0)
		put(text, byte);
}

static void put_number(struct text *text, int number, int width)
{
	char digits[12];
	int length = 0;

	if (number < 0)
		put(text, '-');
	for (int rest = abs(number); rest > 0 || length < width; rest /= 10)
		digits[length++] = (char)('0' + rest % 10);
	while (length > 0)
		put(text, digits[--length]);
}

static void insert(struct text *text, size_t at, int byte)
{
	if (text->length == TEXT_LIMIT)
		return;
	memmove(text->bytes + at + 1, text->bytes + at, text->length - at);
	text->bytes[at] = (unsigned char)byte;
	text->length++;
}

static void delete(struct text *text, size_t at)
{
	text->length--;
	memmove(text->bytes + at, text->bytes + at + 1, text->length - at);
}

/* ---- Frames ---- */

static void write_line(const unsigned char *characters, size_t length)
{
	if (frames_left == 0)
		return;
	fwrite(characters, 1, length, stdout);
	putchar('\n');
	frames_left--;
	frames_of_this_box++;
}

static void put_hexadecimal(struct text *line, const struct text *frame)
{
	static const char values[] = "0123456789ABCDEF";

	for (size_t i = 0; i < frame->length; i++) {
		put(line, values[frame->bytes[i] >> 4]);
		put(line, values[frame->bytes[i] & 15]);
	}
}

static void write_frame(const struct text *frame)
{
	struct text line;

	begin(&line);
	put_hexadecimal(&line, frame);
	write_line(line.bytes, line.length);
}

static void write_short_frame(int first, int second)
{
	struct text frame;

	begin(&frame);
	put(&frame, first);
	put(&frame, second);
	write_frame(&frame);
}

static void write_host_frame(const unsigned char *bytes, size_t length)
{
	struct text frame;

	begin(&frame);
	put(&frame, HOST_BYTES);
	for (size_t i = 0; i < length; i++)
		put(&frame, bytes[i]);
	write_frame(&frame);
}

static void power_cycle(void)
{
	struct text frame;

	begin(&frame);
	put(&frame, POWER_CYCLE);
	write_frame(&frame);
}

static void fresh_box(const struct model *new_model)
{
	model = new_model;
	write_short_frame(FRESH_BOX, (int)(model - models) + 1);
	frames_of_this_box = 0;
}

static void some_ticks(void)
{
	static const unsigned char often[] = {0, 1, 1, 9, 9, 10, 10, 11, 20};
	int ticks = PICK(often);

	if (chance(4))
		ticks = between(0, 255);
	write_short_frame(TICKS, ticks);
}

/* ---- Readings ---- */

static void put_reading(struct text *frame, const struct reading *reading)
{
	put(frame, READING);
	put(frame, reading->channel);
	put(frame, reading->kind);
	put(frame, reading->status);
	put(frame, reading->sign);
	put(frame, reading->value.digits >> 16 & 255);
	put(frame, reading->value.digits >> 8 & 255);
	put(frame, reading->value.digits & 255);
	put(frame, reading->value.exponent);
}

static void write_reading(const struct reading *reading)
{
	struct text frame;

	begin(&frame);
	put_reading(&frame, reading);
	write_frame(&frame);
}

static int some_digits(void)
{
	/* 13332 and 13333 lie on either side of a power of ten in Torr. */
	static const int limits[] = {13332, 13333, 10000, 10001, 99998, 99999};

	return chance(30) ? PICK(limits) : between(10000, 99999);
}

static int some_exponent(void)
{
	static const int limits[] = {-20, -19, -10, -9, -1, 0, 1, 9, 10, 19, 20};

	return chance(40) ? PICK(limits) : between(-20, 20);
}

static int some_gauge(void)
{
	static const int kinds[] = {0, 1, 2, 3, 4, 5, 8};

	return kinds[below(model->gauges)];
}

/* Status 5 belongs to kind 6 alone, status 6 to kind 7. */
static struct reading valid_reading(void)
{
	struct reading reading = {0, 0, 0, 0, {0, 0}};

	reading.channel = between(1, model->channels);
	reading.kind = chance(85) ? some_gauge() : between(6, 7);
	reading.sign = chance(15);
	if (reading.kind == 6 || reading.kind == 7)
		reading.status = reading.kind - 1;
	else if (chance(25))
		reading.status = between(1, 4);
	if (reading.kind != 6 && chance(92)) {
		reading.value.digits = some_digits();
		reading.value.exponent = some_exponent();
	}
	return reading;
}

static void spoil_reading(struct reading *reading)
{
	static const int channel[] = {0, 0, 2, 2, 3, 255};
	static const int kind[] = {6, 7, 8, 8, 8, 8, 9, 9, 10, 255};
	static const int sign[] = {2, 3, 128, 255};
	static const int exponent[] = {-128, -22, -21, -1, 1, 21, 22, 127};
	static const int digits[] = {1, 9999, 10000, 99999, 100000, 65536,
				     75536, 165535, 8388608, 16777215};

	switch (below(9)) {
	case 0: reading->channel = PICK(channel); break;
	case 1: case 2: reading->kind = PICK(kind); break;
	case 3: reading->status = between(4, 8); break;
	case 4: reading->sign = PICK(sign); break;
	case 5: reading->value.digits = PICK(digits); break;
	case 6: reading->value.digits = between(0, 0xFFFFFF); break;
	case 7: reading->value.digits = 0; break;
	default: reading->value.exponent = PICK(exponent); break;
	}
}

static void some_reading(void)
{
	struct reading reading = valid_reading();

	if (chance(18))
		spoil_reading(&reading);
	/* A second fault shows which of the answers 4, 5 and FF comes first. */
	if (chance(4))
		spoil_reading(&reading);
	write_reading(&reading);
}

/* ---- Malformed frames ---- */

/* None of these changes the model, so spoiling may also leave them valid. */
static void put_some_frame(struct text *frame)
{
	struct reading reading = valid_reading();

	switch (below(4)) {
	case 0: put_string(frame, "\001UNI,1\r\005"); break;
	case 1: put_string(frame, "\003\013"); break;
	case 2: put_string(frame, "\001NAD\r\n\005\005"); break;
	default: put_reading(frame, &reading); break;
	}
}

static void spoil_digits(struct text *line)
{
	/* Neighbours of the digits and letters in the code, and other bytes. */
	static const unsigned char odd[] = {'G', 'g', '@', '`', '/', ':', 'x', '-',
					    '+', ' ', ' ', '\t', 0, 127, 200, 255};
	size_t at = below(line->length);

	switch (below(7)) {
	case 0: line->length = 0; break;
	case 1: delete(line, at); break;
	case 2: line->bytes[at] = PICK(odd); break;
	case 3: insert(line, at, PICK(odd)); break;
	case 4: put(line, CR); break;
	case 5: put(line, ' '); break;
	default:
		for (size_t i = 0; i < line->length; i++)
			if (line->bytes[i] >= 'A')
				line->bytes[i] |= 32;
	}
}

static void write_spoilt_digits(void)
{
	struct text frame, line;

	begin(&frame);
	put_some_frame(&frame);
	begin(&line);
	put_hexadecimal(&line, &frame);
	spoil_digits(&line);
	write_line(line.bytes, line.length);
}

static void write_wrong_length(void)
{
	struct reading reading = valid_reading();
	struct text frame;

	begin(&frame);
	switch (below(6)) {
	case 0: put_reading(&frame, &reading); put(&frame, 0); break;
	case 1:
		put_reading(&frame, &reading);
		frame.length = 1 + below(frame.length - 1);
		break;
	case 2: put(&frame, TICKS); put_repeated(&frame, 1, 2 * between(0, 1)); break;
	case 3: put(&frame, FRESH_BOX); put_repeated(&frame, 3, 2 * between(0, 1)); break;
	case 4: put(&frame, POWER_CYCLE); put_repeated(&frame, 0, between(1, 2)); break;
	default: put(&frame, HOST_BYTES); put_repeated(&frame, ENQ, HOST_LIMIT + 1);
	}
	write_frame(&frame);
}

static void write_unknown_first_byte(void)
{
	static const int first[] = {0, 6, 7, 16, 17, 32, 128, 129, 255};
	int length = chance(50) ? between(1, 9) : 0;
	struct text frame;

	begin(&frame);
	put(&frame, PICK(first));
	put_repeated(&frame, between(0, 255), length);
	write_frame(&frame);
}

static void write_long_frame(void)
{
	struct text frame;
	int length = chance(5) ? between(1000, 2000) : between(61, 400);

	begin(&frame);
	put(&frame, between(HOST_BYTES, POWER_CYCLE));
	put_repeated(&frame, chance(50) ? ENQ : between(0, 255), length);
	write_frame(&frame);
}

static void write_malformed(void)
{
	switch (below(9)) {
	case 0: write_long_frame(); break;
	case 1: write_unknown_first_byte(); break;
	case 2: case 3: case 4: write_wrong_length(); break;
	default: write_spoilt_digits(); break;
	}
}

/* ---- Sending host bytes ---- */

/* What may come between two bytes of a line; most of it leaves the line be. */
static void interrupt(void)
{
	switch (below(12)) {
	case 0: case 1: case 2: case 3: some_ticks(); break;
	case 4: case 5: case 6: some_reading(); break;
	case 7: write_host_frame(NULL, 0); break;
	case 8: write_malformed(); break;
	case 9: if (chance(25)) power_cycle(); break;
	default: break;
	}
}

static void send_split(const struct text *text)
{
	for (size_t sent = 0; sent < text->length;) {
		size_t longest = chance(70) ? 8 : HOST_LIMIT;
		size_t piece = 1 + below(longest);

		if (piece > text->length - sent)
			piece = text->length - sent;
		write_host_frame(text->bytes + sent, piece);
		sent += piece;
		if (sent < text->length)
			interrupt();
	}
}

static void send_whole(const struct text *text)
{
	for (size_t sent = 0; sent < text->length; sent += HOST_LIMIT) {
		size_t piece = text->length - sent;

		if (piece > HOST_LIMIT)
			piece = HOST_LIMIT;
		write_host_frame(text->bytes + sent, piece);
	}
}

static void send(const struct text *text)
{
	if (chance(6))
		send_split(text);
	else
		send_whole(text);
}

static void send_string(const char *string)
{
	struct text text;

	begin(&text);
	put_string(&text, string);
	send(&text);
}

static void send_repeated(int byte, int times)
{
	struct text text;

	begin(&text);
	put_repeated(&text, byte, times);
	write_host_frame(text.bytes, text.length);
}

/* ---- Whole numbers and factors ---- */

static int highest(const struct mnemonic *mnemonic)
{
	if (mnemonic->top_needs_channel_2 && model->channels == 1)
		return mnemonic->high - 1;
	return mnemonic->high;
}

static void put_valid_whole(struct text *line, const struct mnemonic *mnemonic)
{
	int value = between(mnemonic->low, highest(mnemonic));

	put_number(line, value, chance(15) ? between(1, 3) : 1);
}

static void put_edge_whole(struct text *line, const struct mnemonic *mnemonic)
{
	/* Values that come back into range when a byte overflows. */
	static const int wraps[] = {255, 256, 257, 258, 259, 260, 512, 999};
	static const char *const forms[] = {
		"", "", "", "+1", "-0", "1.", "1.0", ".1", "0000", "0001", "1E0",
		"0X1", "A", "O", "1A", "1-", "1000", "1024", "65536", "65537",
		"4294967296", "4294967297", "18446744073709551617", ";", "/",
		":", "0:", "00000000001",
	};

	switch (below(8)) {
	case 0: put_number(line, mnemonic->low - 1, between(1, 3)); break;
	case 1: put_number(line, mnemonic->low, between(1, 4)); break;
	case 2: put_number(line, mnemonic->high, between(1, 4)); break;
	case 3: case 4: put_number(line, mnemonic->high + 1, between(1, 3)); break;
	case 5: put_number(line, PICK(wraps), 1); break;
	case 6: put_number(line, between(0, 1100), 1); break;
	default: put_string(line, PICK(forms)); break;
	}
}

static int thousandths_of_a_factor(const struct mnemonic *mnemonic)
{
	const int low = mnemonic->low;
	const int high = mnemonic->high;
	const int often[] = {low, low + 1, 500, 1000, 1250, 2000, high - 1, high};

	return chance(40) ? PICK(often) : between(low, high);
}

/* The form of a reply. */
static void put_shown_factor(struct text *line, int thousandths)
{
	put_number(line, thousandths / 1000, 1);
	put(line, '.');
	put_number(line, thousandths % 1000, 3);
}

/* One factor has many forms: trailing zeros and the point may be left out. */
static void put_valid_factor(struct text *line, const struct mnemonic *mnemonic)
{
	int thousandths = thousandths_of_a_factor(mnemonic);
	int decimals = 3;
	int scale = 1;

	while (decimals > 0 && thousandths / scale % 10 == 0 && chance(60)) {
		decimals--;
		scale *= 10;
	}
	put_number(line, thousandths / 1000, chance(20) ? 2 : 1);
	if (decimals > 0) {
		put(line, '.');
		put_number(line, thousandths % 1000 / scale, decimals);
	}
}

static void put_edge_factor(struct text *line)
{
	static const char *const forms[] = {
		"", "", "", "", "0.099", "0.1", "0.10", "0.100", "0.101", "00.1",
		"00.100", "0.09", "0.0", "0", "00", "0.000", "00.099", "9.999",
		"9.985", "9.989", "9.99", "9.990", "9.991", "09.991", "9.9900",
		"10", "10.0", "10.00", "10.000", "10.001", "10.01", "10.1", "11",
		"99", "99.999", "1.", "10.", "0.", ".", ".5", ".500", ".1", "100",
		"001", "000", "010.0", "1.0000", "0.1000", "10.0000", "0.0999",
		"1..0", "1.0.0", "1.00.", "-1", "+1", "+1.000", "1E0", "1.0E0",
		"1.A", "A", "1;0", "1.-1", "1.+1", "0.356", "65.636", "65.536",
		"66.536", "1.000000000", "1./", "1.:",
	};
	int whole = between(0, 11);
	int decimals = between(0, 1100);

	if (chance(85)) {
		put_string(line, PICK(forms));
		return;
	}
	put_number(line, whole, between(1, 3));
	put(line, '.');
	put_number(line, decimals, between(1, 4));
}

/* ---- Thresholds ---- */

/* The form of a reply, so that a copied sheet is made of it. */
static void put_shown_threshold(struct text *line, struct decimal value)
{
	put_number(line, value.digits / 10000, 1);
	put(line, '.');
	put_number(line, value.digits % 10000, 4);
	put(line, 'E');
	put(line, value.exponent < 0 ? '-' : '+');
	put_number(line, abs(value.exponent), 2);
}

/* Digits beyond the fifth decide the rounding: a tie or just below one. */
static void choose_tail(char *digits, int from, int count)
{
	int tie = chance(50);

	if (from < count)
		digits[from] = tie ? '5' : '4';
	for (int i = from + 1; i < count; i++)
		digits[i] = tie ? '0' : '9';
}

/* Answers the place of the first digit that is not zero; there is one. */
static int choose_digits(char *digits, int count)
{
	int first = chance(25) ? between(0, count - 1) : 0;
	int nines = chance(25);

	for (int i = 0; i < count; i++)
		digits[i] = (char)(i < first ? '0' : nines ? '9' : '0' + between(0, 9));
	if (digits[first] == '0')
		digits[first] = '1';
	if (chance(50))
		choose_tail(digits, first + 5, count);
	return first;
}

static void put_exponent(struct text *line, int exponent)
{
	if (exponent == 0 && chance(60))
		return;
	put(line, 'E');
	if (exponent < 0)
		put(line, '-');
	else if (chance(50))
		put(line, '+');
	put_number(line, abs(exponent), between(1, 2));
}

/* One power of ten in many forms: the E makes good where the point stands. */
static void put_written_threshold(struct text *line, int power, int count)
{
	char digits[THRESHOLD_DIGITS + 2];
	int first = choose_digits(digits, count);
	int whole = chance(70) ? between(0, count) : count;

	if (chance(20))
		put(line, '+');
	for (int i = 0; i < count; i++) {
		if (i == whole)
			put(line, '.');
		put(line, digits[i]);
	}
	if (whole == count && chance(30))
		put(line, '.');
	put_exponent(line, power - (whole - 1 - first));
}

static void put_valid_threshold(struct text *line)
{
	struct decimal value = {some_digits(), 0};
	int count = between(1, THRESHOLD_DIGITS);

	value.exponent = between(-19, 19);
	if (chance(40))
		put_shown_threshold(line, value);
	else
		put_written_threshold(line, value.exponent, count);
}

static void put_threshold_from_list(struct text *line)
{
	static const char *const forms[] = {
		"", "", "", ".", "+", "+.", "-", "E", "E5", "+E5", ".E5", "5.", ".5",
		"5.E1", ".5E1", "+.5", "1E", "1E+", "1E-", "1E1", "1E01", "1E001",
		"1E100", "1E+001", "1E-001", "1E-020", "1e5", "1.0e-3", "-1",
		"-1.0000E-03", "-0", "++1", "+-1", "1+", "1E++1", "1E+-1", "1E1.0",
		"1E1E1", "1.2.3", "1..2", "..1", "1.E.", "0", "+0", "0.0", ".0", "0.",
		"00000", "0E5", "0.0E-99", "0E99", "000000000000", ".000000000000",
		"0000000000000", "000000000001", "0000000000001", "1E-20", "1E-21",
		"1.0000E-20", "0.99999E-20", "0.999994E-20", "0.999995E-20",
		"9.9999E-21", "9.99994E-21", "9.99995E-21", "9.99995E-22",
		"9.9999E20", "9.9999E+20", "9.99994E20", "9.99995E20", "1E21",
		"9.99994999999E20", "9.99995000000E20", "99999.4E16", "99999.5E16",
		"999999999999E8", "999999999999E9", "999994999999E9",
		".000000000001E-8", ".000000000001E-9", ".000000000001E32",
		".000000000001E33", "999999999999E-32", "100000000000E-31",
		"100000000000E-32", "1E99", "1E-99", "9E-99", "123456789012",
		"1234567890123", "12345678901.2", "123456789012.", ".123456789012",
		"123456789012.3", "6.80E-3", "123456", "999994", "999995", "1A",
		"1E5A", "1 E 5", "1E256", "1E0", "1E-0", "1E+0", "1/", ":", "1E:",
	};

	put_string(line, PICK(forms));
}

/* Any order of the characters a number is made of, mostly a fault of form. */
static void put_soup(struct text *line, const char *characters, int count)
{
	size_t choices = strlen(characters);

	while (count-- > 0)
		put(line, characters[below(choices)]);
}

static void put_edge_threshold(struct text *line)
{
	static const int powers[] = {-22, -21, -21, -20, -20, 20, 20, 21, 99, -99};
	int power = PICK(powers);
	int count = between(1, THRESHOLD_DIGITS);
	int longest = THRESHOLD_DIGITS + between(0, 1);

	switch (below(6)) {
	case 0: case 1: put_threshold_from_list(line); break;
	case 2: case 3: put_written_threshold(line, power, count); break;
	case 4: put_written_threshold(line, between(-20, 20), longest); break;
	default: put_soup(line, "0011599..E+-", between(0, 16)); break;
	}
}

/* ---- Lines ---- */

static int field_count(const struct mnemonic *mnemonic)
{
	if (mnemonic->form == NO_FIELD)
		return 0;
	if (mnemonic->form == SWITCHING)
		return 3;
	return mnemonic->per_channel ? model->channels : 1;
}

static void put_valid_field(struct text *line, const struct mnemonic *mnemonic,
			    int field)
{
	if (mnemonic->form == FACTOR)
		put_valid_factor(line, mnemonic);
	else if (mnemonic->form == SWITCHING && field > 0)
		put_valid_threshold(line);
	else
		put_valid_whole(line, mnemonic);
}

static void put_edge_field(struct text *line, const struct mnemonic *mnemonic,
			   int field)
{
	if (mnemonic->form == FACTOR)
		put_edge_factor(line);
	else if (mnemonic->form == SWITCHING && field > 0)
		put_edge_threshold(line);
	else
		put_edge_whole(line, mnemonic);
}

/* Bit i of edge or empty tells what field i is; the others are valid. */
static void put_line(struct text *line, const struct mnemonic *mnemonic,
		     int fields, unsigned edge, unsigned empty)
{
	put_string(line, mnemonic->name);
	for (int i = 0; i < fields; i++) {
		put(line, ',');
		if (empty >> i & 1)
			continue;
		if (edge >> i & 1)
			put_edge_field(line, mnemonic, i);
		else
			put_valid_field(line, mnemonic, i);
	}
}

static void put_valid_line(struct text *line, const struct mnemonic *mnemonic)
{
	put_line(line, mnemonic, field_count(mnemonic), 0, 0);
}

static void put_edge_line(struct text *line, const struct mnemonic *mnemonic)
{
	int fields = field_count(mnemonic);
	unsigned one = 1u << below((size_t)fields + 1);

	/* Mostly one fault alone, else several, whose order then matters. */
	put_line(line, mnemonic, fields, chance(60) ? one : below(8), 0);
}

static void put_line_with_value(struct text *line, const struct mnemonic *mnemonic,
				int field, int value)
{
	put_string(line, mnemonic->name);
	for (int i = 0; i < field_count(mnemonic); i++) {
		put(line, ',');
		if (i != field)
			put_valid_field(line, mnemonic, i);
		else if (mnemonic->form == FACTOR)
			put_shown_factor(line, value);
		else
			put_number(line, value, 1);
	}
}

static void put_line_with_empty_fields(struct text *line,
				       const struct mnemonic *mnemonic)
{
	int fields = field_count(mnemonic);

	if (chance(30))
		put_line(line, mnemonic, fields + 1, 0, 1u << fields);
	else
		put_line(line, mnemonic, fields, 0, 1 + below(7));
}

static void put_unknown_name(struct text *line)
{
	static const char *const names[] = {
		"ADC", "BAL", "BAU", "DAT", "DCB", "DCC", "DGS", "DIS", "EEP", "EPR",
		"ETH", "FSR", "GAS", "HDW", "IOT", "LCM", "LOC", "MAC", "OFC", "OFD",
		"PNR", "RAM", "RES", "RHR", "RST", "RSX", "SC1", "SC2", "SCM", "SEN",
		"TAI", "TIM", "TKB", "TLC", "TMP", "WDT", "SP0", "SP5", "SP", "SPX",
		"SP11", "PR0", "PR3", "PR", "PRXX", "CF0", "CF3", "CF", "uni", "Uni",
		"fil", "sp1", "prx", "UN", "U", "UNIT", "FOL", "COMM", "CO", "SAVE",
		"SA", "ER", "ERRR", "AY", "TI", "NAD1", "1", ",", ",,", ",UNI",
		"UNI;1", "UNI1", "UNI.", "PR2X", "CF21", "PRX0", "ENQ", "\"UNI",
		"U,NI", "",
	};
	const struct mnemonic *near = some_mnemonic();
	size_t letter = line->length + below(3);

	if (chance(65)) {
		put_string(line, PICK(names));
		return;
	}
	put_string(line, near->name);
	line->bytes[letter] ^= (unsigned char)(1u << below(6));
}

static void put_unknown_line(struct text *line)
{
	put_unknown_name(line);
	if (chance(40))
		put(line, ',');
	if (chance(40))
		put_number(line, between(0, 3), 1);
}

/* What another model takes may be unknown here, or have other fields and limits. */
static void put_foreign_line(struct text *line)
{
	const struct model *own = model;
	const struct mnemonic *mnemonic;

	model = &PICK(models);
	mnemonic = some_mnemonic();
	switch (below(4)) {
	case 0: put_string(line, mnemonic->name); break;
	case 1: put_edge_line(line, mnemonic); break;
	default: put_valid_line(line, mnemonic); break;
	}
	model = own;
}

static void mutate(struct text *line)
{
	static const unsigned char odd[] = {
		',', ',', ',', '.', '0', '1', '5', '9', 'E', 'e', '+', '-', 'A', ' ',
		LF, CR, ENQ, ETX, 0, 1, 9, 27, 31, 33, 126, 127, 128, 160, 255,
	};
	size_t at = below(line->length);

	switch (below(5)) {
	case 0: insert(line, at, PICK(odd)); break;
	case 1: put(line, PICK(odd)); break;
	case 2: line->bytes[at] = PICK(odd); break;
	case 3: if (line->length > 1) delete(line, at); break;
	default: line->bytes[at] ^= 32; break;
	}
}

/* Spaces, and an LF that follows no CR, are dropped wherever they stand. */
static void sprinkle(struct text *line, int times)
{
	while (times-- > 0) {
		size_t at = below(line->length + 1);

		insert(line, at, chance(92) ? ' ' : LF);
	}
}

static void end_line(struct text *line)
{
	static const char *const usual[] = {
		"\r", "\r", "\r\n", "\r\005", "\r\005", "\r\005", "\r\n\005",
		"\r\n\005", "\r\005\005", "\r\n\005\005\005",
	};
	static const char *const odd[] = {
		"\005", "\005\005", "\003", "\003\005", "", "\r\003\005", "\r\r\005",
		"\r\n\n\005", "\n\r\005", "\r \n\005", "\r\005\n\005", "\r\n\r\n\005",
		"\r\n ", "\005\r\005", "\003\r\005",
	};

	put_string(line, chance(90) ? PICK(usual) : PICK(odd));
}

static void put_some_line(struct text *line)
{
	const struct mnemonic *mnemonic = some_mnemonic();
	unsigned manner = below(100);

	if (manner < 35) {
		put_valid_line(line, mnemonic);
	} else if (manner < 47) {
		put_foreign_line(line);
	} else if (manner < 60) {
		put_string(line, mnemonic->name);
	} else if (manner < 77) {
		put_edge_line(line, mnemonic);
	} else if (manner < 83) {
		put_line_with_empty_fields(line, mnemonic);
	} else if (manner < 87) {
		put_line(line, mnemonic, between(0, 5), 0, 0);
	} else if (manner < 94) {
		put_valid_line(line, mnemonic);
		mutate(line);
	} else {
		put_unknown_line(line);
	}
	if (chance(10))
		sprinkle(line, between(1, 8));
}

/* ---- Asking ---- */

static void ask(const struct mnemonic *mnemonic)
{
	struct text line;

	begin(&line);
	put_string(&line, mnemonic->name);
	put_string(&line, "\r\005");
	send(&line);
}

static void ask_a_setting(void)
{
	ask(some_setting());
}

static void ask_state(void)
{
	static const char *const questions[] = {
		"\005", "\005\005", "SPS\r\005", "SPS\r\005", "PRX\r\n\005",
		"PRX\r\005", "ERR\r\005", "ERR\r\005\005", "TID\r\005",
	};

	if (chance(50))
		send_string(PICK(questions));
	else
		ask_a_setting();
}

static void change_settings(int times)
{
	while (times-- > 0) {
		struct text line;

		begin(&line);
		put_valid_line(&line, some_setting());
		put(&line, CR);
		send(&line);
	}
}

/* ---- Scenarios ---- */

static void play_lines(void)
{
	for (int lines = between(1, 4); lines > 0; lines--) {
		struct text text;

		begin(&text);
		put_some_line(&text);
		end_line(&text);
		send(&text);
	}
}

/* Numbers with many forms get lines of their own, each shown at once. */
static void play_number_forms(void)
{
	const struct mnemonic *mnemonic = some_mnemonic();

	while (mnemonic->form != FACTOR && mnemonic->form != SWITCHING)
		mnemonic = some_mnemonic();
	for (int lines = between(2, 4); lines > 0; lines--) {
		struct text line;

		begin(&line);
		put_edge_line(&line, mnemonic);
		put_string(&line, "\r\005");
		send(&line);
	}
	ask(mnemonic);
}

/* Both sides of a setting's limits in one field, each shown at once. */
static void play_limits(void)
{
	const struct mnemonic *mnemonic = some_setting();
	const int values[] = {mnemonic->low - 1, mnemonic->low, mnemonic->high,
			      mnemonic->high + 1};
	int field = mnemonic->per_channel ? between(0, model->channels - 1) : 0;

	for (size_t i = 0; i < COUNT(values); i++) {
		struct text line;

		begin(&line);
		put_line_with_value(&line, mnemonic, field, values[i]);
		put_string(&line, "\r\005");
		send(&line);
	}
	ask(mnemonic);
}

static void play_split_lines(void)
{
	struct text text;

	begin(&text);
	for (int lines = between(1, 2); lines > 0; lines--) {
		put_some_line(&text);
		end_line(&text);
	}
	send_split(&text);
}

/* Every field empty in turn, then all of them: nothing may be stored. */
static void play_empty_fields(void)
{
	const struct mnemonic *mnemonic = some_mnemonic();
	int fields = field_count(mnemonic);
	struct text line;

	for (int i = 0; i <= fields; i++) {
		begin(&line);
		put_line(&line, mnemonic, fields + (i == fields), 0, 1u << i);
		put(&line, CR);
		send(&line);
	}
	begin(&line);
	put_string(&line, mnemonic->name);
	put_repeated(&line, ',', fields);
	put_string(&line, "\r\005");
	send(&line);
	ask(mnemonic);
}

/* Ends when the error word has shown the digits that gathered. */
static void play_refusals(void)
{
	static const char *const refused[] = {
		"PR2\r", "CF2\r", "CF2,1\r", "CF2,,,\r", "PR2,1\r", "ERA,3\r",
		"SP1,3,1,1\r", "SP2,3,0,1\r", "SP3,2,0,1\r", "SP4,3,.,1\r", "UNI,5\r",
		"NAD,0\r", "NAD,25\r", "CF1,0.099\r", "COM,3\r", "SAV,2\r", "DCS,7\r",
		"\r", "X\r", "UNI,\r", "CF3\r", "SPS,1\r", "COM,,\r", "PNR,1\r",
		"DCD,1\r", "DCD,4\r", "DCD,2,2\r", "PUC,1\r", "PUC,0,2\r", "UNI,3\r",
		"WDT,2\r", "LOC,\r", "CAL,9.991,1\r", "FIL,3,0\r", "AYT\r", "NAD,1\r",
	};
	static const char *const ends[] = {
		"\005", "\005\005", "ERR\r\005\005", "ERR\r\n\005", "X\005\005",
		"\003\005", "ERR\r\003\005",
	};

	for (int lines = between(2, 4); lines > 0; lines--)
		send_string(PICK(refused));
	send_string(PICK(ends));
}

static void play_readings(void)
{
	static const char *const questions[] = {
		"PRX\r\005", "PR1\r\005", "PR2\r\005", "TID\r\005", "PRX\r\n\005\005",
	};

	if (chance(50))
		send_string(PICK(questions));
	for (int readings = between(1, 5); readings > 0; readings--) {
		some_reading();
		if (chance(40))
			send_repeated(ENQ, 1);
	}
	send_string(PICK(questions));
}

/* ---- Thresholds in a unit ---- */

/* What the box shows in a unit, worked out apart from it. */
static struct decimal shown_value(struct decimal hectopascal, int unit)
{
	static const int powers[] = {0, 0, 2, 3, 0};
	struct decimal shown = hectopascal;

	shown.exponent += powers[unit];
	if (unit == 1 || unit == 3) {
		int64_t product = (int64_t)hectopascal.digits * 3040;

		if (product < 4053 * 10000) {
			product *= 10;
			shown.exponent--;
		}
		shown.digits = (int)((2 * product + 4053) / (2 * 4053));
	}
	return shown;
}

static struct decimal moved(struct decimal value, int by)
{
	value.digits += by;
	if (value.digits > 99999) {
		value.digits -= 90000;
		value.exponent++;
	} else if (value.digits < 10000) {
		value.digits += 90000;
		value.exponent--;
	}
	return value;
}

/* UNI is the first of every sheet, and SP1 to SP4 stand in the same places. */
static int some_unit(void)
{
	return between(model->mnemonics->low, model->mnemonics->high);
}

static void set_unit(int unit)
{
	struct text line;

	begin(&line);
	put_string(&line, "UNI,");
	put_number(&line, unit, 1);
	put(&line, CR);
	send(&line);
}

static void set_function(int function, int assignment, struct decimal lower,
			 struct decimal upper)
{
	struct text line;

	begin(&line);
	put_string(&line, "SP");
	put_number(&line, function, 1);
	put(&line, ',');
	put_number(&line, assignment, 1);
	put(&line, ',');
	put_shown_threshold(&line, lower);
	put(&line, ',');
	put_shown_threshold(&line, upper);
	put(&line, CR);
	send(&line);
}

static void set_switching(int channel, struct decimal near)
{
	struct decimal lower = moved(near, between(-3, 2));
	struct decimal upper = moved(lower, between(-1, 5));

	set_function(between(1, 4), model->channel_1 + channel - 1, lower, upper);
}

static void read_near(struct reading reading)
{
	reading.value = moved(reading.value, between(-4, 4));
	if (chance(6))
		reading.status = between(1, 4);
	if (chance(6))
		reading.sign = 1;
	if (chance(4))
		reading.value = (struct decimal){0, 0};
	if (chance(6))
		reading.channel = between(1, model->channels);
	write_reading(&reading);
}

static void play_thresholds(void)
{
	struct reading reading = {0, 0, 0, 0, {0, 0}};
	int unit = some_unit();

	reading.channel = between(1, model->channels);
	reading.kind = some_gauge();
	reading.value.digits = some_digits();
	reading.value.exponent = chance(85) ? between(-18, 16) : some_exponent();
	set_unit(unit);
	for (int functions = between(1, 2); functions > 0; functions--)
		set_switching(reading.channel, shown_value(reading.value, unit));
	send_string("SPS\r");
	for (int readings = between(3, 6); readings > 0; readings--) {
		read_near(reading);
		if (chance(80))
			send_repeated(ENQ, 1);
		if (chance(12)) {
			set_unit(some_unit());
			send_string("SPS\r\005");
		}
	}
}

/* ---- Thresholds that follow the unit ---- */

/* At an end stop, or where a rounding from Torr to hPa is a half or carries. */
static struct decimal some_following_threshold(void)
{
	static const int odd[] = {75005, 75006, 75007, 75999, 76000, 76001};
	static const int ends[] = {-20, -19, -18, -17, 17, 18, 19, 20};
	struct decimal value = {some_digits(), 0};

	value.exponent = chance(40) ? PICK(ends) : between(-20, 20);
	switch (below(6)) {
	case 0: value.exponent = between(-20, -16); break;
	case 1: value.exponent = between(16, 20); break;
	case 2: value.digits = PICK(odd); break;
	case 3: value.digits = 1520 * (2 * between(3, 24) + 1); break;
	case 4:
		value.digits = 1520 * (2 * between(3, 24) + 1);
		return moved(value, chance(50) ? 1 : -1);
	default: break;
	}
	return value;
}

/* Every assignment, since a function that is off follows too. */
static void set_some_function(int function)
{
	const struct mnemonic *mnemonic = &model->mnemonics[3 + function];
	int assignment = between(mnemonic->low, highest(mnemonic));
	struct decimal lower = some_following_threshold();
	struct decimal upper = some_following_threshold();

	set_function(function, assignment, lower, upper);
}

static void ask_thresholds(void)
{
	send_string("SP1\r\005SP2\r\005SP3\r\005SP4\r\005UNI\r\005SPS\r\005");
}

static void save_or_lose(void)
{
	static const char *const saves[] = {"SAV,1\r", "SAV,1\r", "SAV,0\r", "SAV\r"};

	if (chance(60)) {
		send_string(PICK(saves));
	} else {
		power_cycle();
		ask_thresholds();
	}
}

/* A refused line and a unit to itself are steps of the walk too. */
static void change_unit(void)
{
	struct text line;

	if (chance(85)) {
		set_unit(some_unit());
		return;
	}
	begin(&line);
	put_edge_line(&line, &model->mnemonics[0]);
	put(&line, CR);
	send(&line);
}

static void play_units(void)
{
	set_unit(some_unit());
	for (int function = 1; function <= 4; function++)
		if (chance(60))
			set_some_function(function);
	for (int steps = between(2, 5); steps > 0; steps--) {
		if (chance(20))
			save_or_lose();
		change_unit();
		if (chance(10))
			some_ticks();
		ask_thresholds();
	}
	if (chance(30)) {
		power_cycle();
		ask_thresholds();
	}
}

/* ---- Streaming ---- */

static void tick_a_minute(void)
{
	int last = between(88, 91);

	write_short_frame(TICKS, 255);
	write_short_frame(TICKS, 255);
	write_short_frame(TICKS, last);
	write_short_frame(TICKS, between(0, 2));
}

static void tick_for_a_while(void)
{
	for (int times = between(1, 4); times > 0; times--) {
		some_ticks();
		if (chance(15))
			some_reading();
	}
}

static void stop_stream(void)
{
	static const int bytes[] = {' ', LF, ENQ, ETX, CR, 'P', ',', 0, 127, 255};

	if (chance(15))
		change_unit();
	else
		send_repeated(PICK(bytes), 1);
	if (chance(30))
		send_repeated(LF, between(1, 2));
	some_ticks();
}

static void play_stream(void)
{
	static const char *const starts[] = {
		"COM\r", "COM\r\n", "COM,0\r", "COM,0\r\n", "COM,1\r", "COM,1\r\n",
		"COM,2\r", "COM,2\r\n", "COM,002\r", "C O M , 0 1\r\n", "COM,0\r\n\n",
		"COM,1\r ", "COM,1\r\005", "COM,3\r", "COM,\r", "COM,2\r\r\n",
	};

	send_string(PICK(starts));
	tick_for_a_while();
	if (chance(30)) {
		send_repeated(LF, 1);
		tick_for_a_while();
	}
	if (chance(5))
		write_short_frame(TICKS, 255);
	if (chance(60))
		stop_stream();
}

static void play_slow_stream(void)
{
	static const char *const starts[] = {"COM,2\r", "COM,2\r\n", "COM,02\r"};

	send_string(PICK(starts));
	if (chance(30))
		some_ticks();
	for (int times = between(1, 2); times > 0; times--)
		tick_a_minute();
}

/* ---- Saved sets, sheets, power ---- */

static void play_saved_set(void)
{
	static const char *const saves[] = {
		"SAV\r", "SAV,0\r", "SAV,1\r", "SAV,1\r", "SAV,1\r\n", "SAV,001\r\005",
		"SAV,2\r", "SAV,\r", "SAV,,\r", "SAV,1,\r", "SAV,0001\r", "S AV, 1\r\n\005",
	};

	change_settings(between(1, 5));
	send_string(PICK(saves));
	change_settings(between(0, 3));
	if (chance(30))
		some_reading();
	if (chance(90))
		power_cycle();
	for (int settings = between(2, 6); settings > 0; settings--)
		ask_a_setting();
}

/* A sheet is sent back as it is answered, so its fields have reply form. */
static void put_sheet_line(struct text *line, const struct mnemonic *mnemonic)
{
	put_string(line, mnemonic->name);
	for (int i = 0; i < field_count(mnemonic); i++) {
		put(line, ',');
		if (mnemonic->form == FACTOR) {
			put_shown_factor(line, thousandths_of_a_factor(mnemonic));
		} else if (mnemonic->form == SWITCHING && i > 0) {
			struct decimal value = {some_digits(), 0};

			value.exponent = some_exponent();
			put_shown_threshold(line, value);
		} else {
			put_number(line, between(mnemonic->low, highest(mnemonic)), 1);
		}
	}
	put(line, CR);
}

/* What a sheet leaves is asked for as the present box has it. */
static void send_sheet(const struct text *sheet, size_t length)
{
	for (size_t i = 0; i < length; i++)
		send_whole(&sheet[i]);
	for (size_t i = 0; i < model->sheet_length; i++)
		ask(&model->mnemonics[i]);
}

static void play_sheet(void)
{
	struct text sheet[LONGEST_SHEET];
	const struct model *first = &PICK(models);

	fresh_box(first);
	for (size_t i = 0; i < first->sheet_length; i++) {
		begin(&sheet[i]);
		put_sheet_line(&sheet[i], &first->mnemonics[i]);
	}
	send_sheet(sheet, first->sheet_length);
	/* Mostly the same model; another one has to refuse some lines. */
	fresh_box(chance(65) ? first : &PICK(models));
	/* What a cut sheet leaves of a second box's own shows in its thresholds. */
	if (chance(50))
		change_settings(between(1, 12));
	send_sheet(sheet, chance(40) ? 1 + below(8) : first->sheet_length);
}

static void play_power_on(void)
{
	static const char *const first[] = {
		"\n", "\n", "\005", "\r", "\r\n", "\003", " ", "U", "PRX\r\005",
	};

	if (chance(50))
		power_cycle();
	else
		fresh_box(&PICK(models));
	if (chance(60))
		some_ticks();
	send_string(PICK(first));
	some_ticks();
}

/* ---- Limits of lines and frames ---- */

/* On a 361 the two of channel 2 tell 80 characters (0100) from 81 (0001). */
static void play_long_line(void)
{
	static const char *const heads[] = {
		"PR2,", "PR2,", "CF2,", "CF2,1", "PR2", "UNI,1", "SP1,0,1,1", "",
	};
	static const char *const ends[] = {"\r\005", "\r\n\005", "\005\005", "\003\005"};
	int length = chance(85) ? between(LINE_LIMIT - 2, LINE_LIMIT + 2)
				: between(LINE_LIMIT, 300);
	struct text line;

	begin(&line);
	put_string(&line, PICK(heads));
	put_repeated(&line, chance(50) ? '1' : between(33, 126),
		     length - (int)line.length);
	if (chance(40))
		sprinkle(&line, between(1, 30));
	put_string(&line, PICK(ends));
	send(&line);
}

static void play_spaced_line(void)
{
	struct text line;

	begin(&line);
	put_valid_line(&line, some_mnemonic());
	sprinkle(&line, between(20, 150));
	end_line(&line);
	send(&line);
}

static void play_bad_line(void)
{
	static const int bytes[] = {0, 1, 2, 4, 6, 7, 8, 9, 11, 12, 14, 21, 27, 31,
				    127, 128, 129, 160, 254, 255};
	struct text line;
	size_t at;

	begin(&line);
	put_some_line(&line);
	at = below(line.length + 1);
	insert(&line, at, PICK(bytes));
	end_line(&line);
	if (chance(30))
		put_string(&line, "FIL\r\005");
	send(&line);
}

static void play_full_frame(void)
{
	static const char *const selections[] = {
		"PRX\r", "AYT\r", "AYT\r\n", "SP1\r", "CAL\r", "ERR\r", "TID\r", "X\r",
		"PNR\r", "PUC\r",
	};
	static const int counts[] = {0, 1, 2, 59, 60, 60, 61};
	static const int bytes[] = {ENQ, ENQ, ENQ, ENQ, ENQ, CR, LF, ETX, ' ', 'A'};
	int byte = PICK(bytes);

	send_string(PICK(selections));
	send_repeated(byte, PICK(counts));
	if (chance(15)) {
		send_string("COM,0\r");
		write_short_frame(TICKS, between(250, 255));
	}
}

static void play_odd_bytes(void)
{
	for (int frames = between(1, 3); frames > 0; frames--) {
		int length = between(1, HOST_LIMIT);
		struct text text;

		begin(&text);
		while (length-- > 0)
			put(&text, between(0, 255));
		write_host_frame(text.bytes, text.length);
	}
}

/* Pieces of lines in any order: every state meets every kind of byte. */
static void play_pieces(void)
{
	static const char *const pieces[] = {
		"\r", "\r", "\r", "\n", "\n", "\005", "\005", "\003", " ", ",", ",", "0",
		"1", "2", "1E-3", "E", ".", "+", "\001", "\177", "\377", "UNI", "UNI,1",
		"SP1", "SP2,2,1,2", "CAL", "COM,0", "PRX", "PR2", "ERR", "SAV", "NAD,7",
		"SP2,1,1,2", "DCD,3", "WDT,0", "PNR",
	};
	struct text text;

	begin(&text);
	for (int count = between(2, 20); count > 0; count--)
		put_string(&text, PICK(pieces));
	send(&text);
}

static void play_malformed(void)
{
	static const int no_model[] = {0, 4, 4, 5, 6, 16, 129, 131, 255};

	for (int frames = between(1, 3); frames > 0; frames--)
		write_malformed();
	if (chance(40))
		write_short_frame(FRESH_BOX, PICK(no_model));
}

/* ---- Mixing ---- */

struct scenario {
	unsigned weight;
	void (*play)(void);
};

static void play_a_scenario(void)
{
	static const struct scenario scenarios[] = {
		{340, play_lines},       {70, play_split_lines},
		{90, play_number_forms}, {12, play_slow_stream},
		{25, play_empty_fields}, {50, play_refusals},
		{90, play_readings},     {130, play_thresholds},
		{80, play_stream},       {50, play_saved_set},
		{5, play_sheet},         {25, play_power_on},
		{30, play_long_line},    {15, play_spaced_line},
		{25, play_bad_line},     {20, play_full_frame},
		{8, play_odd_bytes},     {20, play_pieces},
		{25, play_malformed},    {60, play_limits},
		{120, play_units},
	};
	unsigned total = 0;
	unsigned chosen;

	for (size_t i = 0; i < COUNT(scenarios); i++)
		total += scenarios[i].weight;
	chosen = below(total);
	for (size_t i = 0;; i++) {
		if (chosen < scenarios[i].weight) {
			scenarios[i].play();
			return;
		}
		chosen -= scenarios[i].weight;
	}
}

static void generate(void)
{
	unsigned longest = 50;

	while (frames_left > 0) {
		if (frames_of_this_box >= longest) {
			fresh_box(&PICK(models));
			longest = 30 + below(50);
		}
		play_a_scenario();
		if (chance(50))
			ask_state();
	}
}

static int read_number(const char *text, uint64_t *number)
{
	char *end;

	*number = strtoull(text, &end, 10);
	return text[0] >= '0' && text[0] <= '9' && *end == '\0';
}

int main(int count, char **arguments)
{
	if (count != 3 || !read_number(arguments[1], &random_state) ||
	    !read_number(arguments[2], &frames_left)) {
		fprintf(stderr, "usage: generate SEED COUNT\n");
		return 2;
	}
	generate();
	return ferror(stdout) || fflush(stdout) != 0;
}
