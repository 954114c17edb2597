/*
 * The traces of a set as rows, and every inline function for them, from C. The arguments are the
 * folders of set A on disc and on tape, and of a set with a killed receiver and a killed shot.
 */
#include "try.h"

/*
 * The traces of one relation line: how many there are, the components of a receiver, the R line of
 * the first receiver, 1 or -1 to the next, and the R line of the killed one, or 0.
 */
struct traces {
    uint64_t count;
    unsigned components, line;
    int step;
    unsigned killed;
};

/* Row number at holds a trace, from 0. */
static void holds(const uint8_t *rows, size_t at, unsigned trace, struct traces of)
{
    const unsigned line = of.line + (unsigned)of.step * (trace / of.components);
    const unsigned component = trace % of.components + 1, killed = line == of.killed;
    const uint8_t row[SPS_ROW_LEN] = {FIRST, 0, 0, 0, (uint8_t)(trace + 1), 0,
                                      0,     0, (uint8_t)line, 0, 0, 0,
                                      (uint8_t)component, (uint8_t)killed, 0, 0};
    SAME(memcmp(rows + SPS_ROW_LEN * at, row, SPS_ROW_LEN) == 0, 1);
    SAME(sps_row_x_line(rows, at), FIRST);
    SAME(sps_row_channel(rows, at), trace + 1);
    SAME(sps_row_r_line(rows, at), line);
    SAME(sps_row_component(rows, at), component);
    SAME(sps_row_killed(rows, at), killed);
}

/* The traces from a number on, in a slice of some bytes. All else stays, also a byte behind. */
static void slice(struct set set, uint64_t first, size_t len, uint64_t expected,
                  struct traces held)
{
    uint8_t *rows = (uint8_t *)malloc(len + 1);
    size_t left = first < held.count ? (size_t)(held.count - first) : 0;
    size_t places = len / SPS_ROW_LEN, written = places < left ? places : left, at;
    memset(rows, STAYS, len + 1);
    SAME(sps_traces(FILES(set), first, rows, len), expected);
    for (at = 0; at < written; at++)
        holds(rows, at, (unsigned)(first + at), held);
    for (at = SPS_ROW_LEN * written; at <= len; at++)
        SAME(rows[at], STAYS);
    free(rows);
}

/* Slices of many lengths, from each trace on and from beyond the last. */
static void slices(struct set set, uint64_t expected, struct traces held)
{
    static const size_t lengths[] = {0, 1, 15, 16, 17, 31, 32, 33, 48, 63, 144, 145, 160, 175};
    static const uint64_t beyond[] = {255, UINT64_C(1) << 32, (UINT64_C(1) << 60) + 1,
                                      UINT64_C(1) << 63, UINT64_MAX};
    size_t at, more;
    uint64_t first;
    for (at = 0; at < sizeof lengths / sizeof *lengths; at++) {
        for (first = 0; first <= held.count + 1; first++)
            slice(set, first, lengths[at], expected, held);
        for (more = 0; more < sizeof beyond / sizeof *beyond; more++)
            slice(set, beyond[more], lengths[at], expected, held);
    }
    SAME(sps_traces(FILES(set), 0, NULL, 0), expected);
    SAME(sps_traces(FILES(set), UINT64_MAX, NULL, 0), expected);
}

static void accepted(struct set set, struct traces held)
{
    slices(set, held.count, held);
}

static void refused(struct set set, uint64_t expected)
{
    static const struct traces none = {0, 1, 0, 1, 0};
    slices(set, expected, none);
}

/* Edits of set A on disc: laid out backwards, and refused in R, in S and in X. */
static void edits(struct set set)
{
    static const struct traces up = {3, 1, FIRST, 1, 0}, down = {3, 1, THIRD, -1, 0};
    struct set cut = set;
    put(set.x, FIRST, 64, "     103     101");
    accepted(set, down);
    put(set.x, FIRST, 64, "     101     103");
    accepted(set, up);

    cut.r.len = 81;
    refused(cut, refusal(SPS_FILE_LENGTH, SPS_R, 1, 0));
    put(set.s, FIRST, 27, "V2");
    refused(set, refusal(SPS_CODE_NOT_NAMED, SPS_S, FIRST, 27));
    put(set.s, FIRST, 27, "V1");
    put(set.x, FIRST, 64, "     102     104");
    refused(set, refusal(SPS_NO_RECEIVER, SPS_X, FIRST, 64));
    put(set.x, FIRST, 64, "     101     103");
}

/* A medium that is neither comes before all else, also where fewer bits would be one. */
static void media(struct set set)
{
    static const uint64_t others[] = {0, 3, UINT64_C(0x100000001), UINT64_C(0x100000002),
                                      UINT64_C(0x8000000000000001), UINT64_MAX};
    size_t at;
    for (at = 0; at < sizeof others / sizeof *others; at++) {
        set.medium = others[at];
        refused(set, refusal(SPS_QUESTION_RANGE, SPS_NO_FILE, 0, 0));
    }
}

/* Files of no byte. */
static void nothing(void)
{
    const struct set disc = {SPS_DISC, {NULL, 0}, {NULL, 0}, {NULL, 0}};
    const struct set on_tape = {SPS_TAPE, {NULL, 0}, {NULL, 0}, {NULL, 0}};
    refused(disc, refusal(SPS_HEADER_TYPE, SPS_R, 1, 0));
    refused(on_tape, refusal(SPS_TAPE_END, SPS_R, 1, 0));
}

/* The parts of a row at their ends. */
static void parts(void)
{
    static const uint8_t rows[] = {0,    0,    0,    0,    0,    0,    0,    0,
                                   0,    0,    0,    0,    0,    0,    0,    0,
                                   0x0F, 0x27, 0,    0,    4,    3,    2,    1,
                                   0xFE, 0xFF, 0xFF, 0xFF, 9,    1,    0,    0};
    SAME(sizeof rows, 2 * SPS_ROW_LEN);
    SAME(sps_row_x_line(rows, 1), 9999);
    SAME(sps_row_channel(rows, 1), 0x01020304);
    SAME(sps_row_r_line(rows, 1), 0xFFFFFFFE);
    SAME(sps_row_component(rows, 1), 9);
    SAME(sps_row_killed(rows, 1), 1);
    SAME(sps_row_killed(rows, 0), 0);
}

int main(int count, char **words)
{
    static const struct traces of_a = {3, 1, FIRST, 1, 0}, dead = {9, 3, FIRST, 1, SECOND};
    struct set disc, on_tape, with_killed;
    if (count != 4) {
        fprintf(stderr, "usage: %s DISC TAPE KILLED\n", words[0]);
        return 2;
    }
    disc = read_set(SPS_DISC, words[1]);
    on_tape = read_set(SPS_TAPE, words[2]);
    with_killed = read_set(SPS_DISC, words[3]);
    accepted(disc, of_a);
    accepted(on_tape, of_a);
    accepted(with_killed, dead);
    edits(disc);
    media(disc);
    media(on_tape);
    nothing();
    parts();
    free_set(disc);
    free_set(on_tape);
    free_set(with_killed);
    return failures != 0;
}
