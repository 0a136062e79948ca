/* A Callgrind file is read into rows, for the twin of an import. */

#include "import.h"
#include <fcntl.h>
#include <stdio.h>
#include <stdlib.h>
#include <string.h>
#include <unistd.h>

enum { PIECE = 65536, LINE_LIMIT = 1048576 };

struct file file;

static uint64_t line_number;

/* Ends the program with a fault of the line at hand. */
static _Noreturn void refuse(const char *fault)
{
    fprintf(stderr, "line %llu: %s\n", (unsigned long long)line_number, fault);
    exit(1);
}

/* What was read so far. */

enum { OBJECTS, FILES, FUNCTIONS, SPACES };

struct identifiers {
    uint64_t *given;
    uint32_t *meant; /* the place of the name plus 1, or 0 */
    size_t count, mask;
};

static const uint32_t NO_NAME = UINT32_MAX;
static struct identifiers spaces[SPACES];
static uint32_t own[SPACES], called[SPACES], unknown_name;

enum { INSTR, LINE };
static int has_instr, has_line = 1, layout_given, layout_fixed;
static uint64_t places[2];

static int call_waits;
static uint64_t call_line, call_count;

/* Fields and numbers. */

static int is_blank(char c)
{
    return c == ' ' || c == '\t';
}

static struct text trimmed(struct text text)
{
    while (text.length > 0 && is_blank(text.at[0]))
        text.at++, text.length--;
    while (text.length > 0 && is_blank(text.at[text.length - 1]))
        text.length--;
    return text;
}

/* Takes the next field off a text; an empty one where there is none. */
static struct text next_field(struct text *rest)
{
    const char *at = rest->at, *end = at + rest->length;
    while (at < end && is_blank(*at))
        at++;
    struct text field = {at, 0};
    while (at < end && !is_blank(*at))
        at++;
    field.length = (size_t)(at - field.at);
    *rest = (struct text){at, (size_t)(end - at)};
    return field;
}

static uint64_t digit_of(char c)
{
    if (c >= '0' && c <= '9')
        return (uint64_t)(c - '0');
    if (c >= 'a' && c <= 'f')
        return (uint64_t)(c - 'a' + 10);
    if (c >= 'A' && c <= 'F')
        return (uint64_t)(c - 'A' + 10);
    return 16;
}

static uint64_t number_in(struct text field)
{
    uint64_t number = 0, base = 10;
    int is_large = 0;
    if (field.length > 2 && field.at[0] == '0' && field.at[1] == 'x') {
        base = 16;
        field.at += 2, field.length -= 2;
    }
    if (field.length == 0)
        refuse("bad number");
    for (size_t k = 0; k < field.length; k++) {
        uint64_t digit = digit_of(field.at[k]);
        if (digit >= base)
            refuse("bad number");
        is_large |= __builtin_mul_overflow(number, base, &number);
        is_large |= __builtin_add_overflow(number, digit, &number);
    }
    if (is_large)
        refuse("number too large");
    return number;
}

static uint64_t amount_in(struct text field)
{
    uint64_t amount = number_in(field);
    if (amount > INT64_MAX)
        refuse("number too large");
    return amount;
}

/* The part of a subposition that is a number. */
static uint64_t offset_in(struct text field)
{
    int is_signed = field.at[0] == '+' || field.at[0] == '-';
    return number_in((struct text){field.at + is_signed, field.length - (size_t)is_signed});
}

/* A subposition, relative to the one before in its column. */
static uint64_t position_in(struct text field, int column)
{
    uint64_t now = places[column], out = 0;
    int is_out = 0;
    if (field.at[0] == '*' && field.length == 1)
        return now;
    uint64_t offset = offset_in(field);
    if (field.at[0] == '+')
        is_out = __builtin_add_overflow(now, offset, &out);
    else if (field.at[0] == '-')
        is_out = __builtin_sub_overflow(now, offset, &out);
    else
        out = offset;
    if (is_out || (column == LINE && out > INT64_MAX))
        refuse("position range");
    return out;
}

/* Header lines. */

static int is_word(struct text text, const char *word)
{
    return strlen(word) == text.length && memcmp(text.at, word, text.length) == 0;
}

static void read_version(struct text value)
{
    if (value.length == 0 || number_in(value) > 1)
        refuse("version");
}

static void read_positions(struct text value)
{
    struct text first = next_field(&value), second = next_field(&value), more = next_field(&value);
    int instr = is_word(first, "instr");
    int line = instr ? is_word(second, "line") : is_word(first, "line");
    if (more.length > 0 || (second.length > 0 && !(instr && line)) || !(instr || line))
        refuse("positions form");
    if ((layout_given || layout_fixed) && (instr != has_instr || line != has_line))
        refuse("positions form");
    layout_given = 1;
    has_instr = instr, has_line = line;
}

/* Whether the fields of a text are the events in turn. */
static int are_events(struct text value)
{
    for (size_t k = 0; k < file.event_count; k++) {
        struct text name = next_field(&value);
        if (name.length != file.events[k].length || memcmp(name.at, file.events[k].at, name.length) != 0)
            return 0;
    }
    return next_field(&value).length == 0;
}

static int is_event(struct text name)
{
    for (size_t k = 0; k < file.event_count; k++)
        if (name.length == file.events[k].length && memcmp(name.at, file.events[k].at, name.length) == 0)
            return 1;
    return 0;
}

static void read_events(struct text value)
{
    if (file.event_count > 0) {
        if (!are_events(value))
            refuse("events changed");
        return;
    }
    for (struct text name; (name = next_field(&value)).length > 0;) {
        if (file.event_count == EVENTS)
            refuse("too many events");
        if (is_event(name))
            refuse("event twice");
        file.events[file.event_count++] = name_at(held_name(name));
    }
    if (file.event_count == 0)
        refuse("no events");
    file.cells.width = file.cells.key + file.event_count;
    file.calls.width = file.calls.key + 1 + file.event_count;
}

static void read_totals(struct totals *into, struct text value)
{
    size_t column = 0;
    into->given = 1;
    for (struct text field; (field = next_field(&value)).length > 0; column++) {
        uint64_t amount = amount_in(field);
        if (column < EVENTS && __builtin_add_overflow(into->sums[column], amount, &into->sums[column]))
            refuse("totals too large");
    }
}

static void read_event(struct text value)
{
    const char *colon = memchr(value.at, ':', value.length);
    size_t length = colon ? (size_t)(colon - value.at) : value.length;
    if (memchr(value.at, '=', length))
        refuse("formulas are left out");
}

static void read_header(struct text key, struct text value)
{
    if (is_word(key, "version"))
        read_version(trimmed(value));
    else if (is_word(key, "positions"))
        read_positions(value);
    else if (is_word(key, "events"))
        read_events(value);
    else if (is_word(key, "event"))
        read_event(value);
    else if (is_word(key, "summary"))
        read_totals(&file.summary, value);
    else if (is_word(key, "totals"))
        read_totals(&file.totals, value);
}

/* Names of lines. */

static size_t identifier_slot(const struct identifiers *space, uint64_t id)
{
    size_t slot = (id * 0x9e3779b97f4a7c15 >> 32) & space->mask;
    while (space->meant[slot] && space->given[slot] != id)
        slot = (slot + 1) & space->mask;
    return slot;
}

static void widen(struct identifiers *space)
{
    struct identifiers old = *space;
    size_t size = old.given ? 2 * (old.mask + 1) : 1024;
    space->mask = size - 1;
    space->given = zeroed(size, sizeof *space->given);
    space->meant = zeroed(size, sizeof *space->meant);
    for (size_t k = 0; old.given && k <= old.mask; k++) {
        if (old.meant[k]) {
            size_t slot = identifier_slot(space, old.given[k]);
            space->given[slot] = old.given[k];
            space->meant[slot] = old.meant[k];
        }
    }
    free(old.given);
    free(old.meant);
}

/* The name that an identifier means, with what stands behind it on its line. */
static uint32_t meaning(struct identifiers *space, uint64_t id, struct text behind)
{
    if (2 * space->count >= space->mask)
        widen(space);
    size_t slot = identifier_slot(space, id);
    if (behind.length == 0) {
        if (!space->meant[slot])
            refuse("unknown identifier");
        return space->meant[slot] - 1;
    }
    uint32_t name = held_name(behind);
    if (space->meant[slot] && space->meant[slot] != name + 1)
        refuse("identifier redefined");
    if (!space->meant[slot])
        space->count++;
    space->given[slot] = id;
    space->meant[slot] = name + 1;
    return name;
}

/* Whether a text is `(number)` and more, and the length of that. */
static size_t identifier_length(struct text value)
{
    const char *close = memchr(value.at, ')', value.length);
    if (value.length == 0 || value.at[0] != '(' || close == NULL)
        return 0;
    size_t length = (size_t)(close - value.at), from = 1, base = 10;
    if (length > 3 && value.at[1] == '0' && value.at[2] == 'x')
        from = 3, base = 16;
    for (size_t k = from; k < length; k++)
        if (digit_of(value.at[k]) >= base)
            return 0;
    return length > from ? length + 1 : 0;
}

static uint32_t name_in(int space, struct text value)
{
    value = trimmed(value);
    size_t length = identifier_length(value);
    if (length > 0) {
        uint64_t id = number_in((struct text){value.at + 1, length - 2});
        struct text behind = {value.at + length, value.length - length};
        return meaning(&spaces[space], id, trimmed(behind));
    }
    return value.length > 0 ? held_name(value) : unknown_name;
}

static const struct {
    const char *word;
    int space;
    uint32_t *into;
} NAME_WORDS[] = {
    {"fn", FUNCTIONS, &own[FUNCTIONS]},    {"cfn", FUNCTIONS, &called[FUNCTIONS]},
    {"fi", FILES, &own[FILES]},            {"fe", FILES, &own[FILES]},
    {"fl", FILES, &own[FILES]},            {"cfi", FILES, &called[FILES]},
    {"ob", OBJECTS, &own[OBJECTS]},        {"cob", OBJECTS, &called[OBJECTS]},
    {"cfl", FILES, &called[FILES]},        {"jfi", FILES, NULL},
    {"jfn", FUNCTIONS, NULL}};

/* Whether a line names something by a word; what it names is in force from now on. */
static int read_name(struct text word, struct text value)
{
    for (size_t k = 0; k < sizeof NAME_WORDS / sizeof *NAME_WORDS; k++) {
        if (is_word(word, NAME_WORDS[k].word)) {
            uint32_t name = name_in(NAME_WORDS[k].space, value);
            if (NAME_WORDS[k].into != NULL)
                *NAME_WORDS[k].into = name;
            return 1;
        }
    }
    return 0;
}

/* Cost lines and file.calls. */

static void forget_called(void)
{
    for (int k = 0; k < SPACES; k++)
        called[k] = NO_NAME;
}

static void add_up(uint64_t *sums, uint64_t *all, const uint64_t *costs, size_t count)
{
    for (size_t k = 0; k < count; k++) {
        sums[k] += costs[k];
        all[k] += costs[k];
        if (all[k] > INT64_MAX)
            fail("overflow");
    }
}

static void merge_own(const uint64_t *costs)
{
    uint64_t key[4];
    for (int k = 0; k < SPACES; k++)
        key[k] = number_of(own[k]);
    key[3] = has_line ? places[LINE] : 0;
    add_up(sums_of(&file.cells, key), file.self_sums, costs, file.event_count);
}

/* Merges the waiting call: costs with the count of calls in front. */
static void merge_call(const uint64_t *costs)
{
    uint64_t key[7];
    if (called[OBJECTS] == NO_NAME)
        called[OBJECTS] = own[OBJECTS];
    if (called[FILES] == NO_NAME)
        called[FILES] = own[FILES];
    if (called[FUNCTIONS] == NO_NAME)
        called[FUNCTIONS] = unknown_name;
    for (int k = 0; k < SPACES; k++)
        key[k] = number_of(own[k]);
    key[3] = has_line ? places[LINE] : 0;
    for (int k = 0; k < SPACES; k++)
        key[4 + k] = number_of(called[k]);
    add_up(sums_of(&file.calls, key), file.call_sums, costs, 1 + file.event_count);
    call_waits = 0;
    forget_called();
}

/* Reads the costs of a line, of which the last may be missing. */
static void read_costs(struct text rest, uint64_t *costs)
{
    size_t count = 0;
    for (struct text field; (field = next_field(&rest)).length > 0;) {
        if (count == file.event_count)
            refuse("too many costs");
        costs[count++] = amount_in(field);
    }
}

static void read_cost_line(struct text text)
{
    uint64_t costs[1 + EVENTS] = {call_count};
    if (file.event_count == 0)
        refuse("no events");
    layout_fixed = 1;
    for (int column = INSTR; column <= LINE; column++) {
        if (column == INSTR ? has_instr : has_line) {
            struct text field = next_field(&text);
            if (field.length == 0)
                refuse("short line");
            places[column] = position_in(field, column);
        }
    }
    read_costs(text, costs + 1);
    if (call_waits)
        merge_call(costs);
    else
        merge_own(costs + 1);
}

static void read_calls(struct text value)
{
    struct text field = next_field(&value);
    layout_fixed = 1;
    if (field.length == 0)
        refuse("short line");
    call_count = amount_in(field);
    call_waits = 1;
    call_line = line_number;
    for (int targets = has_instr + has_line; targets > 0; targets--) {
        field = next_field(&value);
        if (field.length == 0)
            refuse("short line");
        if (!is_word(field, "*"))
            offset_in(field);
    }
}

/* Lines and pieces. */

static size_t count_of_letters(struct text text)
{
    size_t count = 0;
    while (count < text.length && (text.at[count] | 32) >= 'a' && (text.at[count] | 32) <= 'z')
        count++;
    return count;
}

/* Reads a line that is none of costs. */
static void read_words(struct text text)
{
    size_t length = count_of_letters(text);
    struct text word = {text.at, length}, value = {text.at + length + 1, text.length - length - 1};
    char after = length < text.length ? text.at[length] : 0;
    if (call_waits) {
        line_number = call_line;
        refuse("call without cost");
    }
    if (after == ':' && length > 0)
        read_header(word, value);
    else if (after != '=')
        refuse("unknown line");
    else if (is_word(word, "calls"))
        read_calls(value);
    else if (!read_name(word, value) && !is_word(word, "jump") && !is_word(word, "jcnd"))
        refuse("unknown line");
}

static void read_line(struct text line)
{
    line_number++;
    if (line.length > LINE_LIMIT)
        refuse("line too long");
    if (line.length > 0 && line.at[line.length - 1] == '\r')
        line.length--;
    struct text text = trimmed(line);
    if (text.length == 0 || text.at[0] == '#')
        return;
    char first = text.at[0];
    if ((first >= '0' && first <= '9') || first == '+' || first == '-' || first == '*')
        read_cost_line(text);
    else
        read_words(text);
}

/* The beginning of a line whose end did not come yet. */
static char *kept;
static size_t kept_length, kept_room;

static void keep(const char *at, size_t length)
{
    if (kept_length + length > kept_room) {
        kept_room = 2 * (kept_length + length);
        kept = resized(kept, kept_room, 1);
    }
    memcpy(kept + kept_length, at, length);
    kept_length += length;
    if (kept_length > LINE_LIMIT + 1) {
        line_number++;
        refuse("line too long");
    }
}

static void read_piece(const char *at, const char *end)
{
    for (const char *feed; (feed = memchr(at, '\n', (size_t)(end - at))) != NULL; at = feed + 1) {
        if (kept_length > 0) {
            keep(at, (size_t)(feed - at));
            read_line((struct text){kept, kept_length});
            kept_length = 0;
        } else {
            read_line((struct text){at, (size_t)(feed - at)});
        }
    }
    if (at < end)
        keep(at, (size_t)(end - at));
}

/* Nothing was read. */
static void begin(void)
{
    file.cells.key = 4;
    file.calls.key = 7;
    unknown_name = held_name((struct text){"???", 3});
    for (int k = 0; k < SPACES; k++)
        own[k] = unknown_name;
    forget_called();
}

/* The last line may have no end, and must not be that of a call. */
static void end(void)
{
    if (kept_length > 0)
        read_line((struct text){kept, kept_length});
    line_number = call_line;
    if (call_waits)
        refuse("call without cost");
}

void read_file(const char *path)
{
    static unsigned char piece[PIECE];
    struct digest digest = new_digest();
    int source = open(path, O_RDONLY);
    ssize_t count;
    begin();
    while ((count = read(source, piece, PIECE)) > 0) {
        digest_bytes(&digest, piece, (size_t)count);
        read_piece((const char *)piece, (const char *)piece + count);
    }
    if (count < 0 || close(source) != 0)
        fail("read failed");
    end();
    end_digest(&digest, file.digest);
}
