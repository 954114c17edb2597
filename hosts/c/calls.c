/*
 * Every call on whole files, and every inline function for their answers, from C. The arguments are
 * the folders of set A on disc and on tape, and of a set with a killed receiver and a killed shot.
 */
#include "try.h"

static const uint8_t tape[] = {'1', '0', '0', ' ', ' ', ' '};

/* The same in all three files. */
static void put_in_all(struct set set, size_t line, size_t column, const char *text)
{
    put(set.r, line, column, text);
    put(set.s, line, column, text);
    put(set.x, line, column, text);
}

/*
 * The answer with counts: the places of a slice of some bytes that are written, and what they hold.
 * All else stays, also a byte behind.
 */
static void counts(struct set set, size_t len, uint64_t expected, size_t places,
                   const uint8_t *held)
{
    uint8_t *bytes = (uint8_t *)malloc(len + 1);
    size_t at;
    memset(bytes, STAYS, len + 1);
    SAME(sps_counts(FILES(set), bytes, len), expected);
    for (at = 0; at < places; at++)
        SAME(sps_count(bytes, at), held[at]);
    for (at = 0; at < 8 * places; at++)
        SAME(bytes[at], at % 8 == 0 ? held[at / 8] : 0);
    for (at = 8 * places; at <= len; at++)
        SAME(bytes[at], STAYS);
    free(bytes);
}

/* Whether a refusal is one of the form of a file. */
static int of_form(uint64_t answer)
{
    unsigned number = sps_refusal_number(answer);
    return (number >= SPS_FILE_LENGTH && number <= SPS_CHANNELS) || number == SPS_TAPE_END;
}

/*
 * The form of each file, by what the set is answered: the file that is refused for its form is
 * refused alone too, and those before it are well formed. A medium that is neither is refused of
 * each.
 */
static void forms(struct set set, uint64_t answer)
{
    uint64_t r = form(set.medium, SPS_KIND_R, set.r), s = form(set.medium, SPS_KIND_S, set.s),
             x = form(set.medium, SPS_KIND_X, set.x);
    if (sps_refusal_number(answer) == SPS_QUESTION_RANGE) {
        SAME(r, answer);
        SAME(s, answer);
        SAME(x, answer);
    } else if (of_form(answer)) {
        SAME(r != 0 ? r : s != 0 ? s : x, answer);
    } else {
        SAME(r | s | x, 0);
    }
}

/*
 * The form of each file, the cross-check, the traces without a row, and the counts in slices of
 * each length, of which so many places are written.
 */
static void answers(struct set set, uint64_t expected, size_t places, const uint8_t *held)
{
    static const size_t lengths[] = {0, 7, 8, 15, 16, 31, 32, 33, 39, 40, 41, 47, 48};
    size_t at;
    forms(set, expected);
    SAME(sps_cross(FILES(set)), expected);
    SAME(sps_traces(FILES(set), 0, NULL, 0), expected);
    for (at = 0; at < sizeof lengths / sizeof *lengths; at++) {
        size_t whole = lengths[at] / 8;
        counts(set, lengths[at], expected, whole < places ? whole : places, held);
    }
    SAME(sps_counts(FILES(set), NULL, 0), expected);
}

static void refused(struct set set, uint64_t expected)
{
    answers(set, expected, 0, NULL);
}

/* Set A has 3 receivers, 1 shot, 1 relation line and 3 traces, none of them dead. */
static void accepted(struct set set)
{
    static const uint8_t held[] = {3, 1, 1, 3, 0};
    answers(set, 3, 5, held);
}

/* Files of set A as other kinds, and kinds that are none, also where fewer bits would be one. */
static void kinds(struct set set)
{
    static const uint64_t none[] = {0, SPS_R, SPS_S, SPS_X, 'r', 'H', 256 + SPS_KIND_R,
                                    (UINT64_C(1) << 32) + SPS_KIND_R,
                                    (UINT64_C(1) << 63) + SPS_KIND_X, UINT64_MAX};
    const uint64_t no = refusal(SPS_QUESTION_RANGE, SPS_NO_FILE, 0, 0);
    const struct bytes empty = {NULL, 0};
    struct bytes cut = set.r;
    size_t at;
    SAME(form(set.medium, SPS_KIND_S, set.r), refusal(SPS_LETTER, SPS_S, FIRST, 1));
    SAME(form(set.medium, SPS_KIND_X, set.s), refusal(SPS_LETTER, SPS_X, FIRST, 1));
    SAME(form(set.medium, SPS_KIND_R, set.x), refusal(SPS_LETTER, SPS_R, FIRST, 1));
    cut.len = 79;
    SAME(form(set.medium, SPS_KIND_X, cut), refusal(SPS_FILE_LENGTH, SPS_X, 1, 0));
    for (at = 0; at < sizeof none / sizeof *none; at++) {
        SAME(form(set.medium, none[at], set.r), no);
        SAME(form(set.medium, none[at], cut), no);
        SAME(form(set.medium, none[at], empty), no);
        SAME(form(0, none[at], set.r), no);
    }
    SAME(form(SPS_DISC, SPS_KIND_S, empty), 0);
    SAME(form(SPS_TAPE, SPS_KIND_S, empty), refusal(SPS_TAPE_END, SPS_S, 1, 0));
}

/* The lookup and the way back. */
static void lookups(struct set set)
{
    uint64_t trace = sps_trace(FILES(set), tape, 6, 11, 2);
    SAME(trace, SECOND * 16 + 1);
    SAME(sps_is_refused(trace), 0);
    SAME(sps_trace_line(trace), SECOND);
    SAME(sps_trace_component(trace), 1);
    SAME(sps_trace_killed(trace), 0);
    SAME(sps_channel(FILES(set), tape, 6, 11, SECOND, 1), 2);
    SAME(sps_trace(FILES(set), tape, 6, 11, 4), 0);
    SAME(sps_trace(FILES(set), tape, 6, 12, 2), 0);
    SAME(sps_channel(FILES(set), tape, 6, 11, LAST_HEADER, 1), 0);
    SAME(sps_channel(FILES(set), tape, 6, 11, 9999, 9), 0);
}

/* The header lines of set A that name its codes, which are its last three. */
static void table_lines(struct set set)
{
    const uint64_t no = refusal(SPS_QUESTION_RANGE, SPS_NO_FILE, 0, 0);
    static const uint8_t g1[] = {'G', '1', ' '}, g2[] = {'G', '2'}, v1[] = {'V', '1'};
    static const uint8_t pm[] = {'P', 'M'}, one[] = {'1', ','}, two[] = {'2'};
    SAME(sps_table_line(FILES(set), SPS_INSTRUMENT_CODE, one, 1), LAST_HEADER - 2);
    SAME(sps_table_line(FILES(set), SPS_RECEIVER_CODE, g1, 2), LAST_HEADER - 1);
    SAME(sps_table_line(FILES(set), SPS_SOURCE_CODE, v1, 2), LAST_HEADER);
    SAME(sps_table_line(FILES(set), SPS_RECEIVER_CODE, g2, 2), 0);
    SAME(sps_table_line(FILES(set), SPS_INSTRUMENT_CODE, two, 1), 0);
    SAME(sps_table_line(FILES(set), SPS_RECEIVER_CODE, v1, 2), no);
    SAME(sps_table_line(FILES(set), SPS_SOURCE_CODE, g1, 2), no);
    SAME(sps_table_line(FILES(set), SPS_RECEIVER_CODE, pm, 2), no);
    SAME(sps_table_line(FILES(set), SPS_RECEIVER_CODE, g1, 1), no);
    SAME(sps_table_line(FILES(set), SPS_RECEIVER_CODE, g1, 3), no);
    SAME(sps_table_line(FILES(set), SPS_INSTRUMENT_CODE, one, 2), no);
    SAME(sps_table_line(FILES(set), SPS_INSTRUMENT_CODE, NULL, 0), no);
    SAME(sps_table_line(FILES(set), 0, g1, 2), no);
    SAME(sps_table_line(FILES(set), SPS_RECEIVER_CODE + 256, g1, 2), no);
    SAME(sps_table_line(FILES(set), (UINT64_C(1) << 32) + SPS_RECEIVER_CODE, g1, 2), no);
}

/* Questions out of range, also where fewer bits would be in range. */
static void out_of_range(struct set set)
{
    const uint64_t no = refusal(SPS_QUESTION_RANGE, SPS_NO_FILE, 0, 0);
    uint8_t lines[6], components[3];
    SAME(sps_trace(FILES(set), tape, 5, 11, 2), no);
    SAME(sps_trace(FILES(set), NULL, 0, 11, 2), no);
    SAME(sps_trace(FILES(set), tape, 6, 10000, 2), no);
    SAME(sps_trace(FILES(set), tape, 6, (UINT64_C(1) << 32) + 11, 2), no);
    SAME(sps_trace(FILES(set), tape, 6, 11, UINT64_MAX), no);
    SAME(sps_channel(FILES(set), tape, 6, 11, 0, 1), no);
    SAME(sps_channel(FILES(set), tape, 6, 11, SECOND, 10), no);
    SAME(sps_channel(FILES(set), tape, 6, 11, SECOND, (UINT64_C(1) << 32) + 1), no);
    SAME(sps_spread(FILES(set), tape, 6, UINT64_MAX, lines, 6, components, 3), no);
}

/* A spread table: the answer, and how many places are written. All else stays, also a byte
   behind. */
static void spread(struct set set, uint64_t record, size_t lines_len, size_t components_len,
                   uint64_t expected, size_t places)
{
    uint8_t *lines = (uint8_t *)malloc(lines_len + 1);
    uint8_t *components = (uint8_t *)malloc(components_len + 1);
    size_t at;
    memset(lines, STAYS, lines_len + 1);
    memset(components, STAYS, components_len + 1);
    SAME(sps_spread(FILES(set), tape, 6, record, lines, lines_len, components, components_len),
         expected);
    for (at = 1; at <= places; at++) {
        SAME(sps_spread_line(lines, at), LAST_HEADER + at);
        SAME(lines[2 * at - 1], 0);
        SAME(components[at - 1], 1);
    }
    for (at = 2 * places; at <= lines_len; at++)
        SAME(lines[at], STAYS);
    for (at = places; at <= components_len; at++)
        SAME(components[at], STAYS);
    free(lines);
    free(components);
}

static void spreads(struct set set)
{
    const uint64_t too_short = refusal(SPS_SLICE_LENGTH, SPS_NO_FILE, 0, 0);
    spread(set, 11, 6, 3, 3, 3);
    spread(set, 11, 7, 3, 3, 3);
    spread(set, 11, 20, 10, 3, 3);
    spread(set, 11, 21, 4, 3, 3);
    spread(set, 11, 5, 3, too_short, 0);
    spread(set, 11, 4, 3, too_short, 0);
    spread(set, 11, 6, 2, too_short, 0);
    spread(set, 11, 0, 0, too_short, 0);
    spread(set, 12, 6, 3, 0, 0);
    spread(set, 12, 1, 0, 0, 0);
    SAME(sps_spread(FILES(set), tape, 6, 11, NULL, 0, NULL, 0), too_short);
    SAME(sps_spread(FILES(set), tape, 6, 12, NULL, 0, NULL, 0), 0);
}

/* Files of no byte on disc. */
static void nothing(struct set set)
{
    struct set none = {SPS_DISC, {NULL, 0}, {NULL, 0}, {NULL, 0}};
    struct set one = set;
    const uint64_t no_header = refusal(SPS_HEADER_TYPE, SPS_R, 1, 0);
    refused(none, no_header);
    SAME(sps_trace(FILES(none), tape, 6, 11, 2), no_header);
    SAME(sps_channel(FILES(none), tape, 6, 11, SECOND, 1), no_header);
    SAME(sps_table_line(FILES(none), SPS_INSTRUMENT_CODE, (const uint8_t *)"1", 1), no_header);
    SAME(sps_spread(FILES(none), tape, 6, 11, NULL, 0, NULL, 0), no_header);
    one.s = none.s;
    refused(one, refusal(SPS_HEADER_DIFFERS, SPS_S, 1, 0));
    one = set;
    one.x = none.x;
    refused(one, refusal(SPS_HEADER_DIFFERS, SPS_X, 1, 0));
}

/* Edits of set A on disc, and what each call says of them. */
static void edits(struct set set)
{
    struct set cut = set;
    uint64_t answer;
    cut.r.len = 81;
    refused(cut, refusal(SPS_FILE_LENGTH, SPS_R, 1, 0));

    put(set.x, FIRST, 43, "   4");
    answer = sps_cross(FILES(set));
    SAME(sps_is_refused(answer), 1);
    SAME(sps_refusal_number(answer), SPS_CHANNELS);
    SAME(sps_refusal_file(answer), SPS_X);
    SAME(sps_refusal_line(answer), FIRST);
    SAME(sps_refusal_column(answer), 72);
    refused(set, refusal(6, 3, FIRST, 72));
    SAME(sps_trace(FILES(set), tape, 6, 11, 2), answer);
    SAME(sps_trace(FILES(set), tape, 6, 12, 2), answer);
    SAME(sps_channel(FILES(set), tape, 6, 11, SECOND, 1), answer);
    spread(set, 11, 6, 3, answer, 0);
    spread(set, 11, 0, 0, answer, 0);
    put(set.x, FIRST, 43, "   3");

    put(set.r, THIRD, 18, "     102");
    refused(set, refusal(SPS_RECEIVER_ORDER, SPS_R, THIRD, 2));
    put(set.r, THIRD, 18, "     103");

    put(set.r, THIRD, 27, "G2");
    answer = refusal(SPS_CODE_NOT_NAMED, SPS_R, THIRD, 27);
    refused(set, answer);
    SAME(sps_table_line(FILES(set), SPS_RECEIVER_CODE, (const uint8_t *)"G1", 2), answer);
    put(set.r, THIRD, 27, "G1");

    put_in_all(set, LAST_HEADER, 2, "610");
    refused(set, refusal(SPS_CODE_NOT_NAMED, SPS_S, FIRST, 27));
    put_in_all(set, LAST_HEADER, 33, "G1");
    refused(set, refusal(SPS_CODE_NAMED_TWICE, SPS_R, LAST_HEADER, 33));
    put_in_all(set, LAST_HEADER, 2, "700");
    put_in_all(set, LAST_HEADER, 33, "V1");

    put(set.s, FIRST, 82, "\r");
    refused(set, refusal(SPS_BYTE, SPS_S, FIRST, 82));
    put(set.s, FIRST, 82, "\n");
    accepted(set);
}

/* What each call says of a set that is refused. */
static void refused_by_all(struct set set, uint64_t expected)
{
    refused(set, expected);
    SAME(sps_trace(FILES(set), tape, 6, 11, 2), expected);
    SAME(sps_channel(FILES(set), tape, 6, 11, SECOND, 1), expected);
    SAME(sps_table_line(FILES(set), SPS_RECEIVER_CODE, (const uint8_t *)"G1", 2), expected);
    spread(set, 11, 6, 3, expected, 0);
}

/*
 * Three components of each receiver, of which the second is killed: three of nine traces are dead.
 * Killed shots are counted, and may not be named.
 */
static void killed(struct set set)
{
    static const uint8_t held[] = {3, 2, 1, 9, 3}, lines[] = {FIRST, SECOND, THIRD};
    uint8_t spread_lines[18], components[9];
    unsigned channel;
    answers(set, 9, 5, held);
    SAME(sps_spread(FILES(set), tape, 6, 11, spread_lines, 18, components, 9), 9);
    for (channel = 1; channel <= 9; channel++) {
        unsigned line = lines[(channel - 1) / 3], component = (channel - 1) % 3 + 1;
        uint64_t trace = sps_trace(FILES(set), tape, 6, 11, channel);
        SAME(trace, (line == SECOND) * (UINT64_C(1) << 32) + line * 16 + component);
        SAME(sps_is_refused(trace), 0);
        SAME(sps_trace_line(trace), line);
        SAME(sps_trace_component(trace), component);
        SAME(sps_trace_killed(trace), line == SECOND);
        SAME(sps_channel(FILES(set), tape, 6, 11, line, component), channel);
        SAME(sps_spread_line(spread_lines, channel), line);
        SAME(components[channel - 1], component);
    }
    put(set.s, FIRST, 27, "KL");
    refused_by_all(set, refusal(SPS_NO_SHOT, SPS_X, FIRST, 14));
    put(set.s, FIRST, 27, "V1");
    put(set.s, SECOND, 27, "V1");
    refused_by_all(set, refusal(SPS_SHOT_NOT_NAMED, SPS_S, SECOND, 1));
    put(set.s, SECOND, 27, "KL");
    put(set.r, SECOND, 27, "G1");
    SAME(sps_trace(FILES(set), tape, 6, 11, 5), SECOND * 16 + 2);
}

/* Tapes that are cut, end nowhere or go on, and bytes that no tape takes. */
static void tapes(struct set set)
{
    struct set cut = set;
    uint8_t *end = set.x.at + FIRST * 80, *blank = set.s.at + 79;
    SAME(sps_channel(FILES(set), tape, 6, 11, THIRD + 1, 1), 0);

    cut.r.len -= 1;
    refused_by_all(cut, refusal(SPS_FILE_LENGTH, SPS_R, THIRD + 1, 0));
    cut.r.len -= 79;
    refused_by_all(cut, refusal(SPS_TAPE_END, SPS_R, THIRD + 1, 0));
    cut.r.len = 0;
    refused_by_all(cut, refusal(SPS_TAPE_END, SPS_R, 1, 0));

    end[0] = 'E';
    refused_by_all(set, refusal(SPS_TAPE_END, SPS_X, FIRST + 2, 0));
    end[0] = 0xC5;
    memset(end + 3, 0, 77);
    accepted(set);

    *blank = ' ';
    refused_by_all(set, refusal(SPS_BYTE, SPS_S, 1, 80));
    *blank = 0x40;
    accepted(set);
}

/* A medium that is neither comes before all else, also where fewer bits would be one. */
static void media(struct set set)
{
    static const uint64_t others[] = {0, 3, UINT64_C(0x100000001), UINT64_C(0x100000002),
                                      UINT64_C(0x8000000000000001), UINT64_MAX};
    const uint64_t no = refusal(SPS_QUESTION_RANGE, SPS_NO_FILE, 0, 0);
    struct set cut = set;
    size_t at;
    cut.r.len = 79;
    for (at = 0; at < sizeof others / sizeof *others; at++) {
        set.medium = cut.medium = others[at];
        refused_by_all(set, no);
        refused_by_all(cut, no);
        SAME(sps_trace(FILES(cut), tape, 6, 11, 0), no);
        SAME(sps_trace(FILES(cut), NULL, 0, 11, 2), no);
        SAME(sps_table_line(FILES(set), 0, NULL, 0), no);
        SAME(sps_channel(FILES(cut), tape, 6, 11, SECOND, 10), no);
        spread(cut, UINT64_MAX, 6, 3, no, 0);
        spread(set, 11, 0, 0, no, 0);
    }
}

/* The parts of numbers at their ends. */
static void parts(void)
{
    static const uint8_t number[] = {8,    7,    6,    5,    4,    3,    2,    1,
                                     0xFE, 0xFF, 0xFF, 0xFF, 0xFF, 0xFF, 0xFF, 0xFF};
    SAME(sps_is_refused(0), 0);
    SAME(sps_is_refused((UINT64_C(1) << 40) - 1), 0);
    SAME(sps_is_refused(UINT64_C(1) << 40), 1);
    SAME(sps_refusal_number(refusal(21, 0, 0, 0)), SPS_SLICE_LENGTH);
    SAME(sps_refusal_line(refusal(2, 1, 10000, 0)), 10000);
    SAME(sps_refusal_column(refusal(3, 2, 9999, 82)), 82);
    SAME(sps_count(number, 0), UINT64_C(0x0102030405060708));
    SAME(sps_count(number, 1), UINT64_MAX - 1);
    SAME(sps_trace_line(9999 * 16 + 9), 9999);
    SAME(sps_trace_component(9999 * 16 + 9), 9);
    SAME(sps_trace_killed(9999 * 16 + 9), 0);
    SAME(sps_trace_line((UINT64_C(1) << 32) + 9999 * 16 + 9), 9999);
    SAME(sps_trace_component((UINT64_C(1) << 32) + 9999 * 16 + 9), 9);
    SAME(sps_trace_killed((UINT64_C(1) << 32) + 9999 * 16 + 9), 1);
}

/* What is the same on both media. */
static void both(struct set set)
{
    accepted(set);
    kinds(set);
    lookups(set);
    table_lines(set);
    out_of_range(set);
    spreads(set);
    media(set);
}

int main(int count, char **words)
{
    struct set disc, on_tape, with_killed;
    if (count != 4) {
        fprintf(stderr, "usage: %s DISC TAPE KILLED\n", words[0]);
        return 2;
    }
    disc = read_set(SPS_DISC, words[1]);
    on_tape = read_set(SPS_TAPE, words[2]);
    with_killed = read_set(SPS_DISC, words[3]);
    both(disc);
    both(on_tape);
    nothing(disc);
    edits(disc);
    tapes(on_tape);
    killed(with_killed);
    parts();
    free_set(disc);
    free_set(on_tape);
    free_set(with_killed);
    return failures != 0;
}
