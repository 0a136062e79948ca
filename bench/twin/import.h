/* The parts of the twins of an import and of a report; import.c and reports.c say what these do. */

#include <stddef.h>
#include <stdint.h>

enum { EVENTS = 64 };

struct text {
    const char *at;
    size_t length;
};

/* import_rows.c */

_Noreturn void fail(const char *reason);
void *resized(void *old, size_t count, size_t size);
void *zeroed(size_t count, size_t size);

struct digest {
    uint32_t state[8];
    uint64_t length;
    unsigned char block[64];
};

struct digest new_digest(void);
void digest_bytes(struct digest *digest, const unsigned char *bytes, size_t count);
void end_digest(struct digest *digest, unsigned char out[32]);

/* Names: each distinct one is held once, and has a number from 1 once a record has it. */
uint32_t held_name(struct text text);
struct text name_at(uint32_t place);
uint32_t number_of(uint32_t place);
uint32_t count_of_numbers(void);
struct text numbered_name(uint32_t number);

/* Rows of words, the first of which are a key: each key once, the other words sums. */
struct rows {
    size_t key, width;
    uint64_t *words;
    size_t count, room;
    uint32_t *slots; /* a row's place plus 1, or 0 */
    size_t mask;
};

uint64_t *sums_of(struct rows *rows, const uint64_t *key);
void sort_rows(struct rows *rows);

/* import_file.c */

struct totals {
    int given;
    uint64_t sums[EVENTS];
};

/* What a file says: its events, the totals that it states, and its rows. A cell's key is its object,
   file, function and line, a call's the same and the called object, file and function; the first sum of
   a call is the number of its calls. */
struct file {
    unsigned char digest[32];
    struct text events[EVENTS];
    size_t event_count;
    struct totals summary, totals;
    struct rows cells, calls;
    uint64_t self_sums[EVENTS], call_sums[1 + EVENTS];
};

extern struct file file;

void read_file(const char *path);
