/* Sorts numbers, multiplies matrices, and takes a checksum and greatest common divisors, ROUNDS times over; then prints the
 * four answers in decimal. Loads, stores, branches, multiplications and remainders come in the mix of ordinary code. */
#include "../common/calls.h"

#ifndef ROUNDS
#define ROUNDS 1
#endif

enum { SIDE = 24, NUMBERS = 400, PAIRS = 200 };

static uint64_t left[SIDE][SIDE], right[SIDE][SIDE], product[SIDE][SIDE];
static uint32_t numbers[NUMBERS];
static uint64_t state = 1;

/* The next number of Knuth's linear congruential generator: the high 32 bits of its state. */
static uint32_t next_number(void) {
    state = state * 6364136223846793005u + 1442695040888963407u;
    return state >> 32;
}

static void fill(void) {
    for (int at = 0; at < NUMBERS; at++)
        numbers[at] = next_number();
    for (int row = 0; row < SIDE; row++)
        for (int column = 0; column < SIDE; column++) {
            left[row][column] = next_number();
            right[row][column] = next_number();
        }
}

/* The product's trace modulo 2^64. */
static uint64_t multiply(void) {
    uint64_t trace = 0;
    for (int row = 0; row < SIDE; row++) {
        for (int column = 0; column < SIDE; column++) {
            uint64_t sum = 0;
            for (int at = 0; at < SIDE; at++)
                sum += left[row][at] * right[at][column];
            product[row][column] = sum;
        }
        trace += product[row][row];
    }
    return trace;
}

/* Shell's sort with the gaps 121, 40, 13, 4, 1. */
static void sort(void) {
    for (int gap = 121; gap > 0; gap /= 3)
        for (int from = gap; from < NUMBERS; from++) {
            uint32_t moved = numbers[from];
            int to = from;
            for (; to >= gap && numbers[to - gap] > moved; to -= gap)
                numbers[to] = numbers[to - gap];
            numbers[to] = moved;
        }
}

/* CRC-32 of the numbers' bytes, lowest byte first, bit by bit (the polynomial of IEEE 802.3). */
static uint32_t checksum(void) {
    const uint8_t *bytes = (const uint8_t *)numbers;
    uint32_t sum = 0xffffffff;
    for (size_t at = 0; at < sizeof numbers; at++) {
        sum ^= bytes[at];
        for (int bit = 0; bit < 8; bit++)
            sum = sum >> 1 ^ (sum & 1 ? 0xedb88320 : 0);
    }
    return ~sum;
}

static uint64_t greatest_common_divisor(uint64_t a, uint64_t b) {
    while (b != 0) {
        uint64_t rest = a % b;
        a = b;
        b = rest;
    }
    return a;
}

static uint64_t divisors(void) {
    uint64_t sum = 0;
    for (int at = 0; at < PAIRS; at++)
        sum += greatest_common_divisor(numbers[at], numbers[NUMBERS - 1 - at]);
    return sum;
}

int main(void) {
    uint64_t trace = 0, common = 0;
    uint32_t sum = 0, middle = 0;
    for (int round = 0; round < ROUNDS; round++) {
        fill();
        trace ^= multiply();
        sort();
        middle ^= numbers[NUMBERS / 2];
        sum ^= checksum();
        common += divisors();
    }
    write_line("trace ", trace);
    write_line("middle ", middle);
    write_line("checksum ", sum);
    write_line("divisors ", common);
    return 0;
}
