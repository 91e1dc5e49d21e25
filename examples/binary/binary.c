/* Writes the 256 bytes from 0 to 255: a zero and a newline are bytes like others. */
#include "../common/calls.h"

static uint8_t bytes[256];

int main(void) {
    for (size_t at = 0; at < sizeof bytes; at++)
        bytes[at] = at;
    return write_bytes(bytes, sizeof bytes) == sizeof bytes ? 0 : 1;
}
