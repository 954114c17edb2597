/*
 * The calls that read and write one line, and every inline function for its values, from C. The
 * arguments are the folders of set A on disc and on tape, and of a set with a killed receiver.
 */
#include "try.h"

/* The tape and the line name of set A's lines. */
static const char tape[] = "100   ", name[] = "L1              ";

/* The call that reads a line of the letter. */
static uint64_t read_line(uint64_t medium, uint64_t letter, struct bytes file, uint64_t line,
                          uint8_t *values, size_t len)
{
    if (letter == SPS_KIND_X)
        return sps_read_relation(medium, file.at, file.len, line, values, len);
    return sps_read_point(medium, letter, file.at, file.len, line, values, len);
}

/* The call that writes one. */
static uint64_t write_line(uint64_t letter, const uint8_t *values, size_t len, uint8_t *line,
                           size_t line_len)
{
    if (letter == SPS_KIND_X)
        return sps_write_relation(values, len, line, line_len);
    return sps_write_point(letter, values, len, line, line_len);
}

/* That line name stands in two places of some values. */
static void named(const uint8_t *values, size_t high)
{
    char found[16];
    sps_get_name(values, high, found);
    SAME(memcmp(found, name, 16), 0);
}

/* The values of a receiver of set A, or of its shot. */
static void point_of_a(const uint8_t *values, int64_t number, const char *code)
{
    static const int64_t held[] = {SPS_ABSENT, 0, 0, SPS_ABSENT, SPS_ABSENT, 0, 0, 0, 113, 71245};
    char found[2];
    size_t at;
    named(values, SPS_POINT_NAME_HIGH);
    sps_get_code(values, found);
    SAME(memcmp(found, code, 2), 0);
    SAME(sps_value(values, SPS_POINT_NUMBER), number);
    SAME(sps_value(values, SPS_POINT_INDEX), 1);
    SAME(sps_value(values, SPS_POINT_STATE), SPS_LIVE);
    for (at = 0; at < sizeof held / sizeof *held; at++)
        SAME(sps_value(values, SPS_POINT_STATIC + at), held[at]);
}

/* The values of set A's relation line. */
static void relation_of_a(const uint8_t *values)
{
    static const struct {
        size_t place;
        int64_t held;
    } numbers[] = {{SPS_RELATION_RECORD, 11},         {SPS_RELATION_RECORD_INCREMENT, 1},
                   {SPS_RELATION_INSTRUMENT, 1},      {SPS_RELATION_SOURCE_NUMBER, 501},
                   {SPS_RELATION_SOURCE_INDEX, 1},    {SPS_RELATION_FROM_CHANNEL, 1},
                   {SPS_RELATION_TO_CHANNEL, 3},      {SPS_RELATION_CHANNEL_INCREMENT, 1},
                   {SPS_RELATION_FROM_RECEIVER, 101}, {SPS_RELATION_TO_RECEIVER, 103},
                   {SPS_RELATION_RECEIVER_INDEX, 1}};
    uint8_t found[6];
    size_t at;
    sps_get_tape(values, found);
    SAME(memcmp(found, tape, 6), 0);
    named(values, SPS_RELATION_SOURCE_NAME_HIGH);
    named(values, SPS_RELATION_RECEIVER_NAME_HIGH);
    for (at = 0; at < sizeof numbers / sizeof *numbers; at++)
        SAME(sps_value(values, numbers[at].place), numbers[at].held);
}

/* Reads a line of set A into slices of each length; all but the whole places stays. */
static void read_lengths(struct set set, uint64_t letter, struct bytes file)
{
    static const size_t lengths[] = {0, 7, 8, 15, 16, 127, 128, 129, 136, 144};
    uint8_t all[SPS_VALUES_LEN];
    size_t length, at;
    SAME(read_line(set.medium, letter, file, FIRST, all, sizeof all), 0);
    for (length = 0; length < sizeof lengths / sizeof *lengths; length++) {
        size_t len = lengths[length], whole = len / 8 * 8;
        uint8_t *values = (uint8_t *)malloc(len + 1);
        memset(values, STAYS, len + 1);
        SAME(read_line(set.medium, letter, file, FIRST, values, len), 0);
        for (at = 0; at <= len; at++)
            SAME(values[at], at < whole && at < SPS_VALUES_LEN ? all[at] : STAYS);
        free(values);
    }
    SAME(read_line(set.medium, letter, file, FIRST, NULL, 0), 0);
}

/* A line that is refused, of which nothing is written. */
static void not_read(uint64_t medium, uint64_t letter, struct bytes file, uint64_t line,
                     uint64_t expected)
{
    uint8_t values[SPS_VALUES_LEN];
    size_t at;
    memset(values, STAYS, sizeof values);
    SAME(read_line(medium, letter, file, line, values, sizeof values), expected);
    for (at = 0; at < sizeof values; at++)
        SAME(values[at], STAYS);
}

/* Lines of set A with their values, lines that are not there, and those of another file. */
static void reads(struct set set)
{
    static const uint64_t none[] = {0, 1, LAST_HEADER, THIRD + 1, THIRD + 2, 10000,
                                    (UINT64_C(1) << 32) + FIRST, UINT64_MAX};
    const uint64_t no = refusal(SPS_QUESTION_RANGE, SPS_NO_FILE, 0, 0);
    const struct bytes empty = {NULL, 0};
    uint8_t values[SPS_VALUES_LEN];
    size_t at;
    SAME(read_line(set.medium, SPS_KIND_R, set.r, THIRD, values, sizeof values), SPS_LIVE);
    point_of_a(values, 103, "G1");
    SAME(read_line(set.medium, SPS_KIND_S, set.s, FIRST, values, sizeof values), SPS_LIVE);
    point_of_a(values, 501, "V1");
    SAME(read_line(set.medium, SPS_KIND_X, set.x, FIRST, values, sizeof values), 0);
    relation_of_a(values);
    read_lengths(set, SPS_KIND_R, set.r);
    read_lengths(set, SPS_KIND_S, set.s);
    read_lengths(set, SPS_KIND_X, set.x);
    for (at = 0; at < sizeof none / sizeof *none; at++) {
        not_read(set.medium, SPS_KIND_R, set.r, none[at], no);
        not_read(set.medium, SPS_KIND_X, set.x, none[at], no);
    }
    not_read(set.medium, SPS_KIND_R, set.s, FIRST, refusal(SPS_LETTER, SPS_R, FIRST, 1));
    not_read(set.medium, SPS_KIND_S, set.r, FIRST, refusal(SPS_LETTER, SPS_S, FIRST, 1));
    not_read(set.medium, SPS_KIND_X, set.r, FIRST, refusal(SPS_LETTER, SPS_X, FIRST, 1));
    not_read(set.medium, SPS_KIND_R, empty, 1, no);
    not_read(set.medium, SPS_KIND_X, empty, 1, no);
    not_read(0, SPS_KIND_R, set.r, FIRST, no);
    not_read(3, SPS_KIND_X, set.x, FIRST, no);
    SAME(sps_read_point(set.medium, SPS_KIND_X, set.x.at, set.x.len, FIRST, NULL, 0), no);
    not_read(set.medium, 256 + SPS_KIND_R, set.r, FIRST, no);
}

/*
 * Writes values into slices of each length as a line of the letter, with what it is expected to
 * answer in 82 bytes; a line is the one that is expected. All else stays, also a byte behind.
 */
static void writes(uint64_t letter, const uint8_t *values, uint64_t expected, const uint8_t *line)
{
    static const size_t lengths[] = {0, 1, 81, 82, 83, 90, 164};
    const uint64_t too_short = refusal(SPS_LINE_LENGTH, SPS_NO_FILE, 0, 0);
    size_t length, at;
    for (length = 0; length < sizeof lengths / sizeof *lengths; length++) {
        size_t len = lengths[length];
        uint8_t *out = (uint8_t *)malloc(len + 1);
        int written = expected == 0 && len >= SPS_LINE_LEN;
        memset(out, STAYS, len + 1);
        SAME(write_line(letter, values, SPS_VALUES_LEN, out, len),
             expected == 0 && !written ? too_short : expected);
        for (at = 0; at <= len; at++)
            SAME(out[at], written && at < SPS_LINE_LEN ? line[at] : STAYS);
        free(out);
    }
}

/* A value that no line has, in one place of values that a line has. */
static void not_written(uint64_t letter, const uint8_t *values, size_t place, int64_t value)
{
    uint8_t wrong[SPS_VALUES_LEN];
    memcpy(wrong, values, sizeof wrong);
    sps_put_value(wrong, place, value);
    writes(letter, wrong, refusal(SPS_VALUE_RANGE, SPS_NO_FILE, 0, 0), NULL);
}

/* A receiver of set A, read, changed and written. */
static void write_points(struct set disc)
{
    const uint64_t no = refusal(SPS_VALUE_RANGE, SPS_NO_FILE, 0, 0);
    uint8_t values[SPS_VALUES_LEN], line[SPS_LINE_LEN];
    struct bytes one = {line, sizeof line};
    SAME(read_line(SPS_DISC, SPS_KIND_R, disc.r, FIRST, values, sizeof values), SPS_LIVE);
    memcpy(line, disc.r.at + (FIRST - 1) * SPS_LINE_LEN, sizeof line);
    writes(SPS_KIND_R, values, 0, line);

    sps_put_name(values, SPS_POINT_NAME_HIGH, "91LW1117 ~     x");
    sps_put_value(values, SPS_POINT_STATIC, -123);
    sps_put_value(values, SPS_POINT_WATER_DEPTH, 500);
    sps_put_value(values, SPS_POINT_EASTING, 3262601);
    sps_put_value(values, SPS_POINT_NORTHING, -123456789);
    sps_put_value(values, SPS_POINT_ELEVATION, -5);
    put(one, 1, 2, "91LW1117 ~     x");
    put(one, 1, 29, "-123");
    put(one, 1, 43, "50.0 326260.1-123456789  -0.5");
    writes(SPS_KIND_R, values, 0, line);
    sps_put_code(values, "KL");
    put(one, 1, 27, "KL");
    writes(SPS_KIND_R, values, 0, line);
    put(one, 1, 1, "S");
    writes(SPS_KIND_S, values, 0, line);

    SAME(sps_write_point(SPS_KIND_X, values, sizeof values, line, sizeof line), no);
    writes(256 + SPS_KIND_R, values, no, NULL);
    not_written(SPS_KIND_R, values, SPS_POINT_STATE, SPS_LIVE);
    not_written(SPS_KIND_R, values, SPS_POINT_INDEX, 0);
    not_written(SPS_KIND_R, values, SPS_POINT_NUMBER, -1);
    not_written(SPS_KIND_R, values, SPS_POINT_DEPTH, SPS_ABSENT);
    not_written(SPS_KIND_R, values, SPS_POINT_WATER_DEPTH, 1005);
    not_written(SPS_KIND_R, values, SPS_POINT_TIME, 236000);
    sps_put_code(values, "PM");
    writes(SPS_KIND_R, values, no, NULL);
    sps_put_code(values, "V1");
    writes(SPS_KIND_R, values, no, NULL);
    SAME(sps_write_point(SPS_KIND_S, values, 127, line, sizeof line), no);
    SAME(sps_write_point(SPS_KIND_S, NULL, 0, NULL, 0), no);
}

/* The relation line of set A, read, changed and written. */
static void write_relations(struct set disc)
{
    const uint64_t no = refusal(SPS_VALUE_RANGE, SPS_NO_FILE, 0, 0);
    uint8_t values[SPS_VALUES_LEN], line[SPS_LINE_LEN];
    struct bytes one = {line, sizeof line};
    SAME(read_line(SPS_DISC, SPS_KIND_X, disc.x, FIRST, values, sizeof values), 0);
    memcpy(line, disc.x.at + (FIRST - 1) * SPS_LINE_LEN, sizeof line);
    writes(SPS_KIND_X, values, 0, line);

    sps_put_tape(values, "A 1 ~ ");
    sps_put_name(values, SPS_RELATION_SOURCE_NAME_HIGH, "S line        ~ ");
    sps_put_value(values, SPS_RELATION_FROM_RECEIVER, 103);
    sps_put_value(values, SPS_RELATION_TO_RECEIVER, 101);
    put(one, 1, 2, "A 1 ~ ");
    put(one, 1, 14, "S line        ~ ");
    put(one, 1, 64, "     103     101");
    writes(SPS_KIND_X, values, 0, line);

    not_written(SPS_KIND_X, values, SPS_RELATION_TO_CHANNEL, 4);
    not_written(SPS_KIND_X, values, SPS_RELATION_RECORD, 10000);
    not_written(SPS_KIND_X, values, SPS_RELATION_INSTRUMENT, SPS_ABSENT);
    sps_put_tape(values, " 10000");
    writes(SPS_KIND_X, values, no, NULL);
    SAME(sps_write_relation(values, 129, line, 0), no);
    SAME(sps_write_relation(NULL, 0, NULL, 0), no);
}

/* Values at their ends, in the places that they have. */
static void value_parts(void)
{
    static const int64_t ends[] = {SPS_ABSENT, SPS_ABSENT + 1, -256, -1, 0, 255, INT64_MAX};
    uint8_t values[3 * 8], text[16];
    size_t at;
    for (at = 0; at < sizeof ends / sizeof *ends; at++) {
        memset(values, STAYS, sizeof values);
        sps_put_value(values, 1, ends[at]);
        SAME(sps_value(values, 1), ends[at]);
        SAME(sps_count(values, 1), (uint64_t)ends[at]);
        SAME(values[7], STAYS);
        SAME(values[16], STAYS);
    }
    sps_put_name(values, 1, "ABCDEFGHabcdefg\xFF");
    SAME(sps_count(values, 1), UINT64_C(0x4142434445464748));
    SAME(sps_count(values, 2), UINT64_C(0x61626364656667FF));
    sps_get_name(values, 1, text);
    SAME(memcmp(text, "ABCDEFGHabcdefg\xFF", 16), 0);
    sps_put_tape(values, "100   ");
    SAME(sps_value(values, SPS_RELATION_TAPE), 0x313030202020);
}

/* A killed receiver, and a marker in its place. */
static void states(struct set set)
{
    SAME(read_line(set.medium, SPS_KIND_R, set.r, SECOND, NULL, 0), SPS_KILLED);
    put(set.r, SECOND, 27, "PM");
    SAME(read_line(set.medium, SPS_KIND_R, set.r, SECOND, NULL, 0), SPS_MARKER);
}

int main(int count, char **words)
{
    struct set disc, on_tape, with_killed;
    if (count != 4) {
        fprintf(stderr, "usage: %s DISC TAPE KILLED\n", words[0]);
        return 2;
    }
    disc = read_set(SPS_DISC, words[1]);
    on_tape = read_set(SPS_TAPE, words[2]);
    with_killed = read_set(SPS_DISC, words[3]);
    reads(disc);
    reads(on_tape);
    write_points(disc);
    write_relations(disc);
    states(with_killed);
    value_parts();
    free_set(disc);
    free_set(on_tape);
    free_set(with_killed);
    return failures != 0;
}
