/* Counts words, for the profiles of tests/web. VERSION 2 makes a table of half the size; VERSION 3 has a hash that
 * is the same for words of the same letters, and asks for the length of the word at each letter. */
#include <ctype.h>
#include <stdio.h>
#include <stdlib.h>
#include <string.h>

#if VERSION == 1
#define BUCKETS 512
#else
#define BUCKETS 256
#endif

struct entry {
    char *word;
    long count;
    struct entry *next;
};

static struct entry *table[BUCKETS];

static unsigned hash(const char *word) {
#if VERSION == 3
    unsigned sum = 0;
    for (size_t at = 0; at < strlen(word); at++)
        sum += (unsigned char)word[at];
#else
    unsigned sum = 5381;
    for (const char *at = word; *at; at++)
        sum = sum * 33 + (unsigned char)*at;
#endif
    return sum % BUCKETS;
}

static struct entry *lookup(const char *word) {
    struct entry **bucket = &table[hash(word)];
    for (struct entry *it = *bucket; it; it = it->next)
        if (strcmp(it->word, word) == 0)
            return it;
    struct entry *made = malloc(sizeof *made);
    made->word = strdup(word);
    made->count = 0;
    made->next = *bucket;
    return *bucket = made;
}

static int next_word(FILE *in, char *word, size_t size) {
    size_t length = 0;
    int letter;
    while ((letter = getc(in)) != EOF && (isalpha(letter) || !length))
        if (isalpha(letter) && length + 1 < size)
            word[length++] = (char)tolower(letter);
    word[length] = 0;
    return length > 0;
}

static int by_count(const void *one, const void *other) {
    const struct entry *a = *(struct entry *const *)one, *b = *(struct entry *const *)other;
    return a->count != b->count ? (a->count < b->count) - (a->count > b->count) : strcmp(a->word, b->word);
}

static void report(void) {
    static struct entry *all[20000];
    size_t found = 0;
    for (size_t at = 0; at < BUCKETS; at++)
        for (struct entry *it = table[at]; it; it = it->next)
            all[found++] = it;
    qsort(all, found, sizeof *all, by_count);
    for (size_t at = 0; at < found && at < 10; at++)
        printf("%ld %s\n", all[at]->count, all[at]->word);
}

int main(void) {
    char word[64];
    while (next_word(stdin, word, sizeof word))
        lookup(word)->count++;
    report();
    return 0;
}
