/* Walks the words that stand at sp when a program starts: argc, the arguments, zero, the environment, zero, and the pairs of the
 * auxiliary vector up to AT_NULL. Prints the first argument and the page size. */
#include "../common/calls.h"

enum { AT_NULL = 0, AT_PAGESZ = 6 };

/* The value of a kind of entry of the auxiliary vector, or 0 where it has none. */
static uint64_t auxiliary_value(const uint64_t *entry, uint64_t kind) {
    for (; entry[0] != AT_NULL; entry += 2)
        if (entry[0] == kind)
            return entry[1];
    return 0;
}

int main(const uint64_t *words) {
    uint64_t count = words[0];
    const uint64_t *environment = words + 1 + count + 1;
    while (*environment != 0)
        environment++;
    write_line("argc ", count);
    write_text("argv[0] ");
    write_text((const char *)words[1]);
    write_text("\n");
    write_line("AT_PAGESZ ", auxiliary_value(environment + 1, AT_PAGESZ));
    return 0;
}
