// Checks the set R S X on disc from C++. The status is that of spswhy: 0, 1 or 2.
//
//     c++ -std=c++11 -I include hosts/c/example.cpp target/staticlib/libsps.a -o example_cpp
#include "sps.h"
#include <fstream>
#include <iostream>
#include <iterator>
#include <stdexcept>
#include <string>
#include <vector>

using Bytes = std::vector<uint8_t>;

// A file, whole. One that is not there is no refused file.
static Bytes read_file(const std::string &name)
{
    std::ifstream from(name, std::ios::binary);
    if (!from)
        throw std::runtime_error(name + " cannot be read");
    return Bytes(std::istreambuf_iterator<char>(from), std::istreambuf_iterator<char>());
}

int main(int count, char **words)
try {
    if (count != 4) {
        std::cerr << "usage: " << words[0] << " R S X\n";
        return 2;
    }
    const Bytes r = read_file(words[1]), s = read_file(words[2]), x = read_file(words[3]);
    const uint64_t answer =
        sps_cross(SPS_DISC, r.data(), r.size(), s.data(), s.size(), x.data(), x.size());
    const bool refused = sps_is_refused(answer);
    if (refused)
        std::cout << "REFUSED " << sps_refusal_number(answer) << ' '
                  << "-RSX"[sps_refusal_file(answer)] << ' ' << sps_refusal_line(answer) << ' '
                  << sps_refusal_column(answer) << '\n';
    else
        std::cout << answer << " traces\n";
    // A verdict that could not be written is none.
    if (!std::cout.flush())
        throw std::runtime_error("standard output cannot be written");
    return refused ? 1 : 0;
} catch (const std::exception &error) {
    std::cerr << words[0] << ": " << error.what() << '\n';
    return 2;
}
