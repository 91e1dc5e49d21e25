/* malloc, realloc and free of a C library (picolibc) over brk, with its printf and qsort: a search tree of words that are counted,
 * the words by how often they came, a list that grows, and a heap that is asked for more than there is. */
#include <stdio.h>
#include <stdlib.h>
#include <string.h>

#include "../common/hosted.h"

static const char text[] = "the harts run and the stores wait and the harts take turns and the log keeps the order of the stores";

struct node {
    struct node *less, *greater;
    uint64_t count;
    char word[];
};

static uint64_t nodes;

/* A node of its own for a word. */
static struct node *make_node(const char *word, size_t length) {
    struct node *node = malloc(sizeof *node + length + 1);
    if (node == NULL)
        exit(2);
    node->less = node->greater = NULL;
    node->count = 0;
    memcpy(node->word, word, length);
    node->word[length] = 0;
    nodes++;
    return node;
}

/* The node of a word, made where the tree has none. */
static struct node *find(struct node **root, const char *word, size_t length) {
    while (*root != NULL) {
        int order = strncmp(word, (*root)->word, length);
        if (order == 0 && (*root)->word[length] == 0)
            return *root;
        root = order < 0 ? &(*root)->less : &(*root)->greater;
    }
    return *root = make_node(word, length);
}

/* Counts each word of the text. */
static struct node *count_words(const char *from) {
    struct node *root = NULL;
    while (*from != 0) {
        size_t length = strcspn(from, " ");
        find(&root, from, length)->count++;
        from += length;
        from += strspn(from, " ");
    }
    return root;
}

/* Puts the nodes of a tree into a list, in the order of their words. */
static struct node **list_nodes(struct node *node, struct node **end) {
    if (node == NULL)
        return end;
    end = list_nodes(node->less, end);
    *end++ = node;
    return list_nodes(node->greater, end);
}

/* The word that came more often goes first; of two that came as often, the lesser one. */
static int more_often(const void *left, const void *right) {
    const struct node *one = *(struct node *const *)left, *other = *(struct node *const *)right;
    if (one->count != other->count)
        return one->count > other->count ? -1 : 1;
    return strcmp(one->word, other->word);
}

/* Prints the words, the most frequent first, and gives their nodes back. */
static void print_and_free(struct node *root) {
    size_t length = nodes;
    struct node **list = malloc(length * sizeof *list);
    if (list == NULL)
        exit(3);
    list_nodes(root, list);
    qsort(list, length, sizeof *list, more_often);
    for (size_t at = 0; at < length; at++) {
        printf("%-8s%3d\n", list[at]->word, (int)list[at]->count);
        free(list[at]);
        nodes--;
    }
    free(list);
}

/* The sum of a list of numbers that grows one by one. */
static uint64_t sum_of_grown_list(size_t length) {
    uint64_t *list = NULL, sum = 0;
    for (size_t at = 0; at < length; at++) {
        list = realloc(list, (at + 1) * sizeof *list);
        if (list == NULL)
            exit(4);
        list[at] = at;
    }
    for (size_t at = 0; at < length; at++)
        sum += list[at];
    free(list);
    return sum;
}

int main(void) {
    print_and_free(count_words(text));
    printf("nodes left %d\n", (int)nodes);
    printf("sum %lu\n", (unsigned long)sum_of_grown_list(300));
    puts(malloc(1 << 30) == NULL ? "no room for a gigabyte" : "room for a gigabyte");
    void *again = malloc(64);
    puts(again != NULL ? "room again" : "no room");
    free(again);
    return 0;
}
