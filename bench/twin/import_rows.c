/* The digest, the names and the merged rows of the twins of an import and of a report. */

#define _GNU_SOURCE
#include "import.h"
#include <stdio.h>
#include <stdlib.h>
#include <string.h>

void fail(const char *reason)
{
    fprintf(stderr, "twin: %s\n", reason);
    exit(1);
}

void *resized(void *old, size_t count, size_t size)
{
    void *made = reallocarray(old, count, size);
    if (made == NULL)
        fail("out of memory");
    return made;
}

void *zeroed(size_t count, size_t size)
{
    void *made = calloc(count, size);
    if (made == NULL)
        fail("out of memory");
    return made;
}

/* SHA-256, as FIPS 180-4 has it. */

static const uint32_t ROUNDS[64] = {
    0x428a2f98, 0x71374491, 0xb5c0fbcf, 0xe9b5dba5, 0x3956c25b, 0x59f111f1, 0x923f82a4, 0xab1c5ed5,
    0xd807aa98, 0x12835b01, 0x243185be, 0x550c7dc3, 0x72be5d74, 0x80deb1fe, 0x9bdc06a7, 0xc19bf174,
    0xe49b69c1, 0xefbe4786, 0x0fc19dc6, 0x240ca1cc, 0x2de92c6f, 0x4a7484aa, 0x5cb0a9dc, 0x76f988da,
    0x983e5152, 0xa831c66d, 0xb00327c8, 0xbf597fc7, 0xc6e00bf3, 0xd5a79147, 0x06ca6351, 0x14292967,
    0x27b70a85, 0x2e1b2138, 0x4d2c6dfc, 0x53380d13, 0x650a7354, 0x766a0abb, 0x81c2c92e, 0x92722c85,
    0xa2bfe8a1, 0xa81a664b, 0xc24b8b70, 0xc76c51a3, 0xd192e819, 0xd6990624, 0xf40e3585, 0x106aa070,
    0x19a4c116, 0x1e376c08, 0x2748774c, 0x34b0bcb5, 0x391c0cb3, 0x4ed8aa4a, 0x5b9cca4f, 0x682e6ff3,
    0x748f82ee, 0x78a5636f, 0x84c87814, 0x8cc70208, 0x90befffa, 0xa4506ceb, 0xbef9a3f7, 0xc67178f2};

static const uint32_t START[8] = {0x6a09e667, 0xbb67ae85, 0x3c6ef372, 0xa54ff53a,
                                  0x510e527f, 0x9b05688c, 0x1f83d9ab, 0x5be0cd19};

static uint32_t rotated(uint32_t word, int by)
{
    return word >> by | word << (32 - by);
}

static void schedule(uint32_t words[64], const unsigned char *block)
{
    for (int k = 0; k < 64; k++) {
        if (k < 16) {
            uint32_t word;
            memcpy(&word, block + 4 * k, 4);
            words[k] = __builtin_bswap32(word);
        } else {
            uint32_t a = words[k - 15], b = words[k - 2];
            words[k] = words[k - 16] + words[k - 7]
                       + (rotated(a, 7) ^ rotated(a, 18) ^ a >> 3)
                       + (rotated(b, 17) ^ rotated(b, 19) ^ b >> 10);
        }
    }
}

static void digest_block(uint32_t state[8], const unsigned char *block)
{
    uint32_t words[64];
    uint32_t a = state[0], b = state[1], c = state[2], d = state[3];
    uint32_t e = state[4], f = state[5], g = state[6], h = state[7];
    schedule(words, block);
    for (int k = 0; k < 64; k++) {
        uint32_t first = h + (rotated(e, 6) ^ rotated(e, 11) ^ rotated(e, 25)) + ((e & f) ^ (~e & g))
                         + ROUNDS[k] + words[k];
        uint32_t second = (rotated(a, 2) ^ rotated(a, 13) ^ rotated(a, 22))
                          + ((a & b) ^ (a & c) ^ (b & c));
        h = g, g = f, f = e, e = d + first;
        d = c, c = b, b = a, a = first + second;
    }
    state[0] += a, state[1] += b, state[2] += c, state[3] += d;
    state[4] += e, state[5] += f, state[6] += g, state[7] += h;
}

struct digest new_digest(void)
{
    struct digest made = {.length = 0};
    memcpy(made.state, START, sizeof START);
    return made;
}

void digest_bytes(struct digest *digest, const unsigned char *bytes, size_t count)
{
    size_t held = digest->length % 64;
    digest->length += count;
    while (held + count >= 64) {
        size_t taken = 64 - held;
        if (held > 0)
            memcpy(digest->block + held, bytes, taken);
        digest_block(digest->state, held > 0 ? digest->block : bytes);
        bytes += taken, count -= taken, held = 0;
    }
    memcpy(digest->block + held, bytes, count);
}

void end_digest(struct digest *digest, unsigned char out[32])
{
    unsigned char tail[72] = {0x80};
    uint64_t bits = __builtin_bswap64(8 * digest->length);
    size_t padding = 64 - (digest->length + 8) % 64;
    memcpy(tail + padding, &bits, 8);
    digest_bytes(digest, tail, padding + 8);
    for (int k = 0; k < 32; k++)
        out[k] = (unsigned char)(digest->state[k / 4] >> (24 - k % 4 * 8));
}

/* Names. */

struct name {
    struct text text;
    uint64_t hash;
    uint32_t number;
};

static struct name *names;
static uint32_t name_count, name_room;
static uint32_t *name_slots; /* a name's place plus 1, or 0 */
static size_t name_mask;
static uint32_t *numbered; /* names in the order of their numbers */
static uint32_t numbered_count, numbered_room;

static uint64_t hash_of(struct text text)
{
    uint64_t hash = 0xcbf29ce484222325;
    for (size_t k = 0; k < text.length; k++)
        hash = (hash ^ (unsigned char)text.at[k]) * 0x100000001b3;
    return hash ^ hash >> 32;
}

static void place_names(void)
{
    size_t size = name_mask ? 2 * (name_mask + 1) : 1024;
    free(name_slots);
    name_slots = zeroed(size, sizeof *name_slots);
    name_mask = size - 1;
    for (uint32_t k = 0; k < name_count; k++) {
        size_t slot = names[k].hash & name_mask;
        while (name_slots[slot])
            slot = (slot + 1) & name_mask;
        name_slots[slot] = k + 1;
    }
}

static uint32_t add_name(struct text text, uint64_t hash)
{
    char *bytes = resized(NULL, text.length + 1, 1);
    memcpy(bytes, text.at, text.length);
    if (name_count == name_room) {
        name_room = name_room ? 2 * name_room : 1024;
        names = resized(names, name_room, sizeof *names);
    }
    names[name_count] = (struct name){{bytes, text.length}, hash, 0};
    return name_count++;
}

/* The place of a name, which is held from now on. */
uint32_t held_name(struct text text)
{
    uint64_t hash = hash_of(text);
    if (2 * (size_t)name_count >= name_mask)
        place_names();
    size_t slot = hash & name_mask;
    for (; name_slots[slot]; slot = (slot + 1) & name_mask) {
        const struct name *name = &names[name_slots[slot] - 1];
        if (name->hash == hash && name->text.length == text.length
            && memcmp(name->text.at, text.at, text.length) == 0)
            return name_slots[slot] - 1;
    }
    name_slots[slot] = add_name(text, hash) + 1;
    return name_slots[slot] - 1;
}

/* The number of a name that a record has. */
uint32_t number_of(uint32_t name)
{
    if (names[name].number == 0) {
        if (numbered_count == numbered_room) {
            numbered_room = numbered_room ? 2 * numbered_room : 1024;
            numbered = resized(numbered, numbered_room, sizeof *numbered);
        }
        numbered[numbered_count++] = name;
        names[name].number = numbered_count;
    }
    return names[name].number;
}

struct text name_at(uint32_t place)
{
    return names[place].text;
}

uint32_t count_of_numbers(void)
{
    return numbered_count;
}

struct text numbered_name(uint32_t number)
{
    return names[numbered[number - 1]].text;
}

/* Rows. */

static size_t slot_of(const struct rows *rows, const uint64_t *key)
{
    uint64_t hash = 0;
    for (size_t k = 0; k < rows->key; k++) {
        hash = (hash ^ key[k]) * 0x9e3779b97f4a7c15;
        hash ^= hash >> 29;
    }
    return hash & rows->mask;
}

static void place_rows(struct rows *rows)
{
    size_t size = rows->mask ? 2 * (rows->mask + 1) : 1024;
    free(rows->slots);
    rows->slots = zeroed(size, sizeof *rows->slots);
    rows->mask = size - 1;
    for (size_t k = 0; k < rows->count; k++) {
        size_t slot = slot_of(rows, rows->words + k * rows->width);
        while (rows->slots[slot])
            slot = (slot + 1) & rows->mask;
        rows->slots[slot] = (uint32_t)k + 1;
    }
}

static uint64_t *add_row_of(struct rows *rows, const uint64_t *key)
{
    if (rows->count == rows->room) {
        rows->room = rows->room ? 2 * rows->room : 1024;
        rows->words = resized(rows->words, rows->room * rows->width, sizeof *rows->words);
    }
    if (rows->count == UINT32_MAX)
        fail("too many rows");
    uint64_t *row = rows->words + rows->count++ * rows->width;
    memset(row, 0, rows->width * sizeof *row);
    memcpy(row, key, rows->key * sizeof *row);
    return row;
}

/* The sums of a key, which is held from now on. */
uint64_t *sums_of(struct rows *rows, const uint64_t *key)
{
    if (2 * rows->count >= rows->mask)
        place_rows(rows);
    size_t slot = slot_of(rows, key);
    for (; rows->slots[slot]; slot = (slot + 1) & rows->mask) {
        uint64_t *row = rows->words + (size_t)(rows->slots[slot] - 1) * rows->width;
        if (memcmp(row, key, rows->key * sizeof *row) == 0)
            return row + rows->key;
    }
    uint64_t *row = add_row_of(rows, key);
    rows->slots[slot] = (uint32_t)rows->count;
    return row + rows->key;
}

static int key_order(const void *first, const void *second, void *rows)
{
    const uint64_t *a = first, *b = second;
    size_t k = 0, last = ((const struct rows *)rows)->key - 1;
    while (k < last && a[k] == b[k])
        k++;
    return (a[k] > b[k]) - (a[k] < b[k]);
}

void sort_rows(struct rows *rows)
{
    free(rows->slots);
    qsort_r(rows->words, rows->count, rows->width * sizeof *rows->words, key_order, rows);
}
