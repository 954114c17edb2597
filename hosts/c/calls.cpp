// Every call of sps.h from C++, on set A. The arguments are its folders on disc and on tape, and
// that of a set with a killed receiver and a killed shot.
#include "sps.h"
#include <cstddef>
#include <cstdint>
#include <fstream>
#include <iostream>
#include <iterator>
#include <string>
#include <vector>

namespace {

using Bytes = std::vector<std::uint8_t>;

int failures = 0;

// The table of set A for G1, and its receivers, by their lines in R.
const unsigned OF_G1 = 23, FIRST = 25, SECOND = 26, THIRD = 27;

template <typename Found, typename Expected>
void same(const char *what, const Found &found, const Expected &expected)
{
    if (!(found == expected)) {
        ++failures;
        std::cerr << what << " is not what is expected\n";
    }
}

Bytes read(const std::string &path)
{
    std::ifstream file(path, std::ios::binary);
    return Bytes(std::istreambuf_iterator<char>(file), std::istreambuf_iterator<char>());
}

struct Set {
    std::uint64_t medium;
    Bytes r, s, x;

    std::uint64_t form(std::uint64_t kind, const Bytes &file) const
    {
        return sps_form(medium, kind, file.data(), file.size());
    }
    std::uint64_t cross() const
    {
        return sps_cross(medium, r.data(), r.size(), s.data(), s.size(), x.data(), x.size());
    }
    std::uint64_t counts(Bytes &counts) const
    {
        return sps_counts(medium, r.data(), r.size(), s.data(), s.size(), x.data(), x.size(),
                          counts.data(), counts.size());
    }
    std::uint64_t traces(std::uint64_t first, Bytes &rows) const
    {
        return sps_traces(medium, r.data(), r.size(), s.data(), s.size(), x.data(), x.size(), first,
                          rows.data(), rows.size());
    }
    std::uint64_t trace(const Bytes &tape, std::uint64_t record, std::uint64_t channel) const
    {
        return sps_trace(medium, r.data(), r.size(), s.data(), s.size(), x.data(), x.size(),
                         tape.data(), tape.size(), record, channel);
    }
    std::uint64_t channel(const Bytes &tape, std::uint64_t record, std::uint64_t r_line,
                          std::uint64_t component) const
    {
        return sps_channel(medium, r.data(), r.size(), s.data(), s.size(), x.data(), x.size(),
                           tape.data(), tape.size(), record, r_line, component);
    }
    std::uint64_t spread(const Bytes &tape, std::uint64_t record, Bytes &lines,
                         Bytes &components) const
    {
        return sps_spread(medium, r.data(), r.size(), s.data(), s.size(), x.data(), x.size(),
                          tape.data(), tape.size(), record, lines.data(), lines.size(),
                          components.data(), components.size());
    }
    std::uint64_t table_line(std::uint64_t kind, const Bytes &code) const
    {
        return sps_table_line(medium, r.data(), r.size(), s.data(), s.size(), x.data(), x.size(),
                              kind, code.data(), code.size());
    }
    std::uint64_t read_point(std::uint64_t letter, const Bytes &file, std::uint64_t line,
                             Bytes &values) const
    {
        return sps_read_point(medium, letter, file.data(), file.size(), line, values.data(),
                              values.size());
    }
    std::uint64_t read_relation(std::uint64_t line, Bytes &values) const
    {
        return sps_read_relation(medium, x.data(), x.size(), line, values.data(), values.size());
    }
};

Set read_set(std::uint64_t medium, const std::string &folder)
{
    return {medium, read(folder + "/set.r01"), read(folder + "/set.s01"),
            read(folder + "/set.x01")};
}

// The counts of set A in so many bytes, as far as there are whole places; all else stays.
Bytes counted(std::size_t length)
{
    const std::uint8_t counts[] = {3, 1, 1, 3, 0};
    Bytes bytes(length, 0xAA);
    for (std::size_t at = 0; at < length / 8 * 8 && at < 40; ++at)
        bytes[at] = at % 8 == 0 ? counts[at / 8] : 0;
    return bytes;
}

void answers(const Set &set)
{
    const Bytes tape = {'1', '0', '0', ' ', ' ', ' '};
    Bytes lines(9, 0xEE), components(4, 0xEE);
    const Bytes written = {FIRST, 0, SECOND, 0, THIRD, 0, 0xEE, 0xEE, 0xEE}, ones = {1, 1, 1, 0xEE};

    same("the form of R", set.form(SPS_KIND_R, set.r), 0u);
    same("the form of S", set.form(SPS_KIND_S, set.s), 0u);
    same("the form of X", set.form(SPS_KIND_X, set.x), 0u);
    same("the cross-check", set.cross(), 3u);
    for (std::size_t length : {0, 7, 8, 15, 16, 31, 32, 33, 39, 40, 41, 48}) {
        Bytes counts(length, 0xAA);
        same("the answer with counts", set.counts(counts), 3u);
        same("the counts", counts, counted(length));
    }
    same("a count", sps_count(counted(40).data(), SPS_TRACES), 3u);
    const std::uint64_t trace = set.trace(tape, 11, 3);
    same("the R line", sps_trace_line(trace), THIRD);
    same("the component", sps_trace_component(trace), 1u);
    same("no mark", sps_trace_killed(trace), 0);
    same("the way back", set.channel(tape, 11, THIRD, 1), 3u);
    same("no trace", set.trace(tape, 11, 4), 0u);
    same("the highest channel", set.spread(tape, 11, lines, components), 3u);
    same("the lines", lines, written);
    same("the components", components, ones);
    same("a line of the table", sps_spread_line(lines.data(), 3), THIRD);
    same("a tape too short", sps_refusal_number(set.trace({'1'}, 11, 3)), SPS_QUESTION_RANGE);
    same("the line of G1", set.table_line(SPS_RECEIVER_CODE, {'G', '1'}), OF_G1);
    same("no line of 2", set.table_line(SPS_INSTRUMENT_CODE, {'2'}), 0u);
    same("a code of another kind", sps_refusal_number(set.table_line(SPS_SOURCE_CODE, {'G', '1'})),
         SPS_QUESTION_RANGE);
    same("no code", sps_refusal_number(set.table_line(SPS_RECEIVER_CODE, {})), SPS_QUESTION_RANGE);
}

// Files of another kind, and kinds that are none.
void kinds(const Set &set)
{
    const std::uint64_t answer = set.form(SPS_KIND_R, set.s);
    same("the number of another kind", sps_refusal_number(answer), SPS_LETTER);
    same("the file of another kind", sps_refusal_file(answer), SPS_R);
    same("the line of another kind", sps_refusal_line(answer), FIRST);
    same("the column of another kind", sps_refusal_column(answer), 1u);
    for (std::uint64_t kind : {UINT64_C(0), UINT64_C(1), UINT64_C(72), UINT64_C(114),
                               (UINT64_C(1) << 32) + SPS_KIND_R, UINT64_MAX}) {
        same("no kind", set.form(kind, set.r), UINT64_C(20) << 40);
        same("no kind of no byte", set.form(kind, {}), UINT64_C(20) << 40);
    }
}

// A byte more at the end of R, whose last line is given.
void refusals(Set set, unsigned last)
{
    Bytes counts(33, 0xAA);
    const Bytes stays = counts;
    set.r.push_back('R');
    const std::uint64_t answer = set.counts(counts);
    same("is refused", sps_is_refused(answer), 1);
    same("the number", sps_refusal_number(answer), SPS_FILE_LENGTH);
    same("the file", sps_refusal_file(answer), SPS_R);
    same("the line", sps_refusal_line(answer), last + 1);
    same("the column", sps_refusal_column(answer), 0u);
    same("the counts of a refusal", counts, stays);
    same("the form of the file", set.form(SPS_KIND_R, set.r), answer);
    same("the form of another", set.form(SPS_KIND_S, set.s), 0u);
    same("the line of a code", set.table_line(SPS_RECEIVER_CODE, {'G', '1'}), answer);
}

// Three components of each receiver, of which the second is killed.
void killed(const Set &set)
{
    const Bytes tape = {'1', '0', '0', ' ', ' ', ' '};
    Bytes counts(40, 0xAA), rows(6 * SPS_ROW_LEN, 0xAA);
    same("the traces", set.counts(counts), 9u);
    same("the traces from the fourth on", set.traces(3, rows), 9u);
    const Bytes row = {FIRST, 0, 0, 0, 5, 0, 0, 0, SECOND, 0, 0, 0, 2, 1, 0, 0};
    same("a row", Bytes(rows.begin() + SPS_ROW_LEN, rows.begin() + 2 * SPS_ROW_LEN), row);
    same("its parts", sps_row_r_line(row.data(), 0) + sps_row_component(row.data(), 0), SECOND + 2);
    same("a mark and none", sps_row_killed(rows.data(), 2) - sps_row_killed(rows.data(), 3), 1);
    same("the shots", sps_count(counts.data(), SPS_SHOTS), 2u);
    same("the dead traces", sps_count(counts.data(), SPS_DEAD_TRACES), 3u);
    for (std::uint64_t channel : {1, 4, 6, 9}) {
        const std::uint64_t trace = set.trace(tape, 11, channel);
        const bool dead = channel == 4 || channel == 6;
        same("the mark", sps_trace_killed(trace) == 1, dead);
        same("the line without the mark", sps_trace_line(trace), FIRST + (channel - 1) / 3);
        same("the way back from it",
             set.channel(tape, 11, sps_trace_line(trace), sps_trace_component(trace)), channel);
    }
}

// The receiver FIRST of set A and its relation line, with their values.
void reads(const Set &set)
{
    Bytes values(SPS_VALUES_LEN + 1, 0xAA), stays(SPS_VALUES_LEN, 0xAA);
    std::string name(16, ' '), code(2, ' '), tape(6, ' ');
    same("a receiver", set.read_point(SPS_KIND_R, set.r, FIRST, values), SPS_LIVE);
    sps_get_name(values.data(), SPS_POINT_NAME_HIGH, &name[0]);
    sps_get_code(values.data(), &code[0]);
    same("its name", name, "L1              ");
    same("its code", code, "G1");
    same("its number", sps_value(values.data(), SPS_POINT_NUMBER), 101);
    same("no static", sps_value(values.data(), SPS_POINT_STATIC), SPS_ABSENT);
    same("its time", sps_value(values.data(), SPS_POINT_TIME), 71245);
    same("the byte behind", values.back(), 0xAA);
    same("a relation line", set.read_relation(FIRST, values), 0u);
    sps_get_tape(values.data(), &tape[0]);
    same("its tape", tape, "100   ");
    same("its last receiver", sps_value(values.data(), SPS_RELATION_TO_RECEIVER), 103);
    const Bytes before = stays;
    same("a header line", set.read_point(SPS_KIND_R, set.r, OF_G1, stays), UINT64_C(20) << 40);
    same("a line beyond", set.read_relation(THIRD, stays), UINT64_C(20) << 40);
    same("a line of another file",
         sps_refusal_number(set.read_point(SPS_KIND_S, set.r, FIRST, stays)), SPS_LETTER);
    same("the values of a refusal", stays, before);
}

// Lines of set A, read on a medium, changed, and written on disc.
void writes(const Set &set, const Set &disc)
{
    Bytes values(SPS_VALUES_LEN), line(SPS_LINE_LEN + 1, 0xAA);
    Bytes expected(disc.r.begin() + (FIRST - 1) * SPS_LINE_LEN,
                   disc.r.begin() + FIRST * SPS_LINE_LEN);
    expected.push_back(0xAA);
    const auto write = [&] {
        return sps_write_point(SPS_KIND_R, values.data(), values.size(), line.data(), line.size());
    };
    set.read_point(SPS_KIND_R, set.r, FIRST, values);
    same("a line as it was", write(), 0u);
    same("its bytes", line, expected);
    sps_put_code(values.data(), "KL");
    sps_put_value(values.data(), SPS_POINT_ELEVATION, -5);
    same("a killed receiver", write(), 0u);
    same("its code", std::string(line.begin() + 26, line.begin() + 28), "KL");
    same("its elevation", std::string(line.begin() + 65, line.begin() + 71), "  -0.5");

    const Bytes stays = line;
    sps_put_value(values.data(), SPS_POINT_INDEX, 10);
    same("no index", sps_refusal_number(write()), SPS_VALUE_RANGE);
    set.read_relation(FIRST, values);
    same("a relation in too few bytes",
         sps_refusal_number(sps_write_relation(values.data(), values.size(), line.data(), 81)),
         SPS_LINE_LENGTH);
    same("what a refusal writes", line, stays);
    sps_put_tape(values.data(), "200   ");
    same("a relation",
         sps_write_relation(values.data(), values.size(), line.data(), line.size()), 0u);
    same("its tape", std::string(line.begin(), line.begin() + 7), "X200   ");
}

// Files of no byte, and a medium that is neither.
void media(Set set)
{
    const Set disc = {SPS_DISC, {}, {}, {}}, tape = {SPS_TAPE, {}, {}, {}};
    Bytes counts(32, 0xAA);
    const Bytes stays = counts;
    same("an empty set on disc", sps_refusal_number(disc.cross()), SPS_HEADER_TYPE);
    same("an empty set on tape", sps_refusal_number(tape.cross()), SPS_TAPE_END);
    for (std::uint64_t medium : {UINT64_C(0), UINT64_C(3), UINT64_C(0x100000001), UINT64_MAX}) {
        set.medium = medium;
        same("another medium", sps_refusal_number(set.counts(counts)), SPS_QUESTION_RANGE);
        same("a file of another medium", set.form(SPS_KIND_R, set.r), UINT64_C(20) << 40);
        same("the counts of another medium", counts, stays);
    }
}

} // namespace

int main(int count, char **words)
{
    if (count != 4) {
        std::cerr << "usage: " << words[0] << " DISC TAPE KILLED\n";
        return 2;
    }
    const Set disc = read_set(SPS_DISC, words[1]), tape = read_set(SPS_TAPE, words[2]);
    answers(disc);
    answers(tape);
    kinds(disc);
    kinds(tape);
    refusals(disc, THIRD);
    refusals(tape, THIRD + 1);
    media(disc);
    reads(disc);
    reads(tape);
    writes(disc, disc);
    writes(tape, disc);
    killed(read_set(SPS_DISC, words[3]));
    return failures != 0;
}
