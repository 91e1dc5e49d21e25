/* A list of words in order, without a C library. Each is a struct of 200 bytes with its text inside: GCC calls memcpy where one is copied,
 * and memset for = {0}. The program itself calls memmove, memcmp and strlen. All five functions are those of common/memory.c. */
#include "../common/calls.h"

/* Without a C library there is no string.h. */
void *memmove(void *to, const void *from, size_t length);
int memcmp(const void *one, const void *other, size_t length);
size_t strlen(const char *text);

enum { ROOM = 12, TEXT = 199 };

/* A word: how long its text is, and the text, behind which all bytes are zero. */
struct word {
    uint8_t length;
    char text[TEXT];
};

static struct word list[ROOM];
static size_t count;

static struct word make_word(const char *text) {
    struct word word = {0};
    word.length = strlen(text);
    memmove(word.text, text, word.length);
    return word;
}

/* The place of the first word that isn't less than this one. */
static size_t find(const struct word *word) {
    size_t at = 0;
    while (at < count && memcmp(list[at].text, word->text, TEXT) < 0)
        at++;
    return at;
}

/* Puts a word at its place: those from there on move up by one. */
static void insert(struct word word) {
    size_t at = find(&word);
    memmove(&list[at + 1], &list[at], (count - at) * sizeof *list);
    list[at] = word;
    count++;
}

/* Takes a word out: those behind it move down by one. 0 where the list hasn't got it. */
static int take_out(struct word word) {
    size_t at = find(&word);
    if (at == count || memcmp(&list[at], &word, sizeof word) != 0)
        return 0;
    count--;
    memmove(&list[at], &list[at + 1], (count - at) * sizeof *list);
    return 1;
}

int main(void) {
    static const char *const texts[] = {"stores", "wait", "and", "harts", "take", "turns", "until", "the", "log", "ends"};
    for (size_t at = 0; at < sizeof texts / sizeof *texts; at++)
        insert(make_word(texts[at]));
    int had_until = take_out(make_word("until")), had_unti = take_out(make_word("unti"));
    for (size_t at = 0; at < count; at++) {
        write_bytes(list[at].text, list[at].length);
        write_text(at + 1 < count ? " " : "\n");
    }
    write_line("words ", count);
    return had_until && !had_unti ? 0 : 1;
}
