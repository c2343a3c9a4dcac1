// driver.cpp: plays the fuzz target where there is no libFuzzer: fuzz SECONDS SEED FILES.. changes the given inputs at
// random until the time is over, having played each as it is. It has no coverage to go by, so it stays near them.
#include <chrono>
#include <cstdint>
#include <cstdio>
#include <cstdlib>
#include <fstream>
#include <iterator>
#include <random>
#include <vector>

extern "C" int LLVMFuzzerTestOneInput(const std::uint8_t* data, std::size_t size);

using Input = std::vector<std::uint8_t>;

namespace {

std::mt19937_64 random_bits;

std::size_t under(std::size_t limit) { return limit == 0 ? 0 : random_bits() % limit; }

void put(Input& input, std::size_t at, std::uint32_t word) {
    for (int i = 0; i < 4 && at < input.size(); ++i, ++at) input[at] = static_cast<std::uint8_t>(word >> 8 * i);
}

// A few changes: a byte, a bit, a word among those that rules turn on, a byte from elsewhere, the end cut off.
void change(Input& input) {
    static const std::uint32_t turning[] = {0,    1,    2,    3,     4,     12,    13,         16,         22,
                                            23,   63,   64,   135,   136,   640,   641,        4096,       4097,
                                            8191, 8192, 8193, 12288, 65535, 65536, 0x7F800000, 0x80000000, 0xFFFFFFFF};
    for (std::size_t times = 1 + under(4); times != 0 && !input.empty(); --times) {
        const std::size_t at = under(input.size());
        switch (under(5)) {
            case 0: input[at] = static_cast<std::uint8_t>(random_bits()); break;
            case 1: input[at] ^= static_cast<std::uint8_t>(1u << under(8)); break;
            case 2: put(input, at, turning[under(std::size(turning))]); break;
            case 3: input[under(input.size())] = input[at]; break;
            default:
                if (under(8) == 0) input.resize(at);
        }
    }
}

}  // namespace

int main(int count, char** given) {
    if (count < 4) return std::fprintf(stderr, "fuzz SECONDS SEED FILES..\n"), 2;
    std::vector<Input> first;
    for (int i = 3; i < count; ++i) {
        std::ifstream file(given[i], std::ios::binary);
        first.emplace_back(std::istreambuf_iterator<char>(file), std::istreambuf_iterator<char>());
    }
    random_bits.seed(std::strtoull(given[2], nullptr, 10));
    for (const Input& input : first) LLVMFuzzerTestOneInput(input.data(), input.size());
    const auto end = std::chrono::steady_clock::now() + std::chrono::seconds(std::atoi(given[1]));
    std::uint64_t played = first.size();
    for (; std::chrono::steady_clock::now() < end; ++played) {
        Input input = first[under(first.size())];
        change(input);
        LLVMFuzzerTestOneInput(input.data(), input.size());
    }
    std::printf("%llu inputs\n", static_cast<unsigned long long>(played));
    return 0;
}
