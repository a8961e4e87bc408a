// Calls the static library of crates/bundle_measure: WHAT IDLE ROUNDS, as tools/measure says.
#include <stdbool.h>
#include <stdint.h>
#include <stdlib.h>
uint64_t warm_rounds(uint32_t idle, uint64_t rounds);
uint64_t closing_rounds(uint32_t idle, uint32_t rounds, bool is_new_wanted);
int main(int count, char **words) {
    uint64_t idle = strtoul(words[2], 0, 10);
    uint64_t rounds = strtoull(words[3], 0, 10);
    if (words[1][0] == 'r') return warm_rounds(idle, rounds) != rounds;
    return closing_rounds(idle, rounds, words[1][0] == 'o') != rounds;
}
