/* The plain counterpart of reports: C over libsqlite3, without proofs. It prints what profhouse prints of
   all runs of a store for

     by --db DATABASE --event EVENT KEY
     inclusive --db DATABASE --event EVENT
     callers --db DATABASE --event EVENT --object OBJECT FUNCTION
     subtract --db DATABASE --less-run RUN --event EVENT KEY
     csv --db DATABASE
     runs --db DATABASE

   It reads the cells or the calls of each run as SQLite finds them by the index of their keys, which needs no
   sorting, adds each up as often as its column counts in the event, in a hash map by the numbers of names (import_rows.c has it), reads the
   names, sorts the sums and writes a line for each. For csv the numbers of a place and of the event's name
   are the key.

   Options stand before the database. `--run N` asks of that run alone. `--rows table` takes the rows of all runs in one
   pass over the table, without an index, in place of `--rows index`. `--calls sought` lets SQL find the calls of the
   function whose callers are asked, in place of `--calls all`, which reads all calls as the program does.

   Left out are other selections, limits and thresholds, folded stacks in `inclusive` and `csv`, and sums of 2^64 or
   more; the last two end the program. It believes what the tables hold, that they hold the run that is
   taken off, and that a function whose names they hold is one of a run. */

#define _GNU_SOURCE
#include "import.h"
#include <sqlite3.h>
#include <stdio.h>
#include <stdlib.h>
#include <string.h>

enum question { BY, INCLUSIVE, CALLERS, SUBTRACT, CSV, RUNS, QUESTIONS };
enum key { OBJECT, SOURCE, FUNCTION, LINE, KEYS };

static const char *const QUESTION_NAMES[QUESTIONS] = {"by", "inclusive", "callers", "subtract", "csv", "runs"};
static const int WORDS_BEHIND[QUESTIONS] = {1, 0, 2, 2, 0, 0};
static const char *const KEY_NAMES[KEYS] = {"object", "file", "function", "line"};

/* How the rows of runs are read: of one run after the other by the index, or all of the table at once. */
enum reading { BY_INDEX, WHOLE_TABLE, READINGS };
static const char *const READING_NAMES[READINGS] = {"index", "table"};

#define CELLS_OF "SELECT ob, fl, fn, line, event, cost, run FROM thread_cell"
#define CALLS_OF "SELECT ob, fl, fn, line, cob, cfl, cfn, part, n, run FROM arc"
enum { CELL_RUN = 6, CALL_RUN = 9 };
static const char *const CELLS[READINGS] = {CELLS_OF " WHERE run = ?", CELLS_OF};
static const char *const CALLS[READINGS] = {CALLS_OF " WHERE run = ?", CALLS_OF};
static const char *const CALLS_SOUGHT[READINGS] = {CALLS_OF " WHERE run = ?1 AND cob = ?2 AND cfn = ?3",
                                                   CALLS_OF " WHERE cob = ?2 AND cfn = ?3"};

static sqlite3 *db;
static enum reading reading = BY_INDEX;
static uint64_t only_run; /* 0: all runs */
static int are_sought;
static enum question question;
static enum key key = FUNCTION;
static struct text event;
static uint64_t called[2]; /* the function whose callers are asked */
static struct text *names; /* by their numbers */

/* How often each column of a run counts in the event, by the numbers of runs, and those of the run that is read. */
static uint64_t (*counts_of_runs)[EVENTS];
static uint64_t *counts;
static struct rows sums = {.key = 2};

/* The names of all runs' events, and the place of each of a run's events among them. */
static struct text *events;
static size_t event_count;
static size_t event_places[EVENTS];

/* Which of the sums of a key its costs are added to, and the totals of these sums. Of two sums the second
   is the number of calls, or the costs that are taken off. */
static int side;
static uint64_t totals[2];

/* Ends the program unless a call gave what it should. */
static void must(int got, int want)
{
    if (got != want)
        fail(sqlite3_errmsg(db));
}

static sqlite3_stmt *prepared(const char *text)
{
    sqlite3_stmt *statement;
    must(sqlite3_prepare_v2(db, text, -1, &statement, NULL), SQLITE_OK);
    return statement;
}

/* Whether a question has one more row. */
static int has_row(sqlite3_stmt *statement)
{
    int got = sqlite3_step(statement);
    if (got != SQLITE_ROW)
        must(got, SQLITE_DONE);
    return got == SQLITE_ROW;
}

static uint64_t number_in(sqlite3_stmt *statement, int column)
{
    return (uint64_t)sqlite3_column_int64(statement, column);
}

/* The place of the event in a table of a run, or -1. */
static int place_in(const char *text, uint64_t run)
{
    sqlite3_stmt *find = prepared(text);
    must(sqlite3_bind_int64(find, 1, (int64_t)run), SQLITE_OK);
    must(sqlite3_bind_blob64(find, 2, event.at, event.length, SQLITE_STATIC), SQLITE_OK);
    int place = has_row(find) ? (int)number_in(find, 0) : -1;
    sqlite3_finalize(find);
    return place;
}

/* Counts the columns of the derived event at a place. */
static void count_columns(uint64_t run, int place)
{
    sqlite3_stmt *coefficients = prepared("SELECT event, n FROM coef WHERE run = ? AND pos = ?");
    must(sqlite3_bind_int64(coefficients, 1, (int64_t)run), SQLITE_OK);
    must(sqlite3_bind_int64(coefficients, 2, place), SQLITE_OK);
    while (has_row(coefficients))
        counts[number_in(coefficients, 0) % EVENTS] = number_in(coefficients, 1);
    sqlite3_finalize(coefficients);
}

/* How often each column of a run counts in the event. Answers whether the run has it. */
static int read_counts(uint64_t run)
{
    counts = counts_of_runs[run];
    memset(counts, 0, sizeof *counts_of_runs);
    int place = place_in("SELECT pos FROM run_event WHERE run = ? AND name = ?", run);
    if (place >= 0) {
        counts[place % EVENTS] = 1;
        return 1;
    }
    place = place_in("SELECT pos FROM derived WHERE run = ? AND name = ?", run);
    if (place >= 0)
        count_columns(run, place);
    return place >= 0;
}

/* The place of an event's name, which is new or not. */
static size_t event_place(sqlite3_stmt *event)
{
    size_t length = (size_t)sqlite3_column_bytes(event, 1), k = 0;
    while (k < event_count
           && (events[k].length != length || memcmp(events[k].at, sqlite3_column_blob(event, 1), length) != 0))
        k++;
    if (k == event_count) {
        char *bytes = resized(NULL, length + 1, 1);
        memcpy(bytes, sqlite3_column_blob(event, 1), length);
        events = resized(events, ++event_count, sizeof *events);
        events[k] = (struct text){bytes, length};
    }
    return k;
}

static void read_event_places(uint64_t run)
{
    sqlite3_stmt *found = prepared("SELECT pos, name FROM run_event WHERE run = ?");
    must(sqlite3_bind_int64(found, 1, (int64_t)run), SQLITE_OK);
    while (has_row(found))
        event_places[number_in(found, 0) % EVENTS] = event_place(found);
    sqlite3_finalize(found);
}

/* The parts of a cell's place that the key tells. */
static void key_of(sqlite3_stmt *cells, uint64_t parts[2])
{
    parts[0] = number_in(cells, key == OBJECT || key == FUNCTION ? 0 : 1);
    parts[1] = key == FUNCTION ? number_in(cells, 2) : key == LINE ? number_in(cells, 3) : 0;
}

static void add_to(uint64_t *sum, uint64_t cost)
{
    if (__builtin_add_overflow(*sum, cost, sum))
        fail("a sum of 2^64 or more");
}

/* The cost in a column, as often as it counts in the event. */
static uint64_t weighed(uint64_t place, uint64_t cost)
{
    if (__builtin_mul_overflow(cost, counts[place % EVENTS], &cost))
        fail("a cost of 2^64 or more");
    return cost;
}

static void add_cell(sqlite3_stmt *cell)
{
    uint64_t parts[2], cost = weighed(number_in(cell, 4), number_in(cell, 5));
    if (cost == 0)
        return;
    key_of(cell, parts);
    add_to(sums_of(&sums, parts) + side, cost);
    add_to(&totals[side], cost);
}

static void add_cell_of_event(sqlite3_stmt *cell)
{
    uint64_t parts[5] = {number_in(cell, 0), number_in(cell, 1), number_in(cell, 2), number_in(cell, 3),
                         event_places[number_in(cell, 4) % EVENTS]};
    uint64_t cost = number_in(cell, 5);
    if (cost > 0)
        add_to(sums_of(&sums, parts), cost);
}

/* Adds a cost of calls to their caller, unless it calls itself. */
static void add_outward(sqlite3_stmt *calls)
{
    uint64_t caller[2] = {number_in(calls, 0), number_in(calls, 2)}, part = number_in(calls, 7);
    if (part == 0 || (caller[0] == number_in(calls, 4) && caller[1] == number_in(calls, 6)))
        return;
    uint64_t cost = weighed(part - 1, number_in(calls, 8));
    if (cost > 0)
        add_to(sums_of(&sums, caller), cost);
}

/* Adds a cost or the number of calls to their caller, if they are of the function that is asked. */
static void add_caller(sqlite3_stmt *calls)
{
    if (number_in(calls, 4) != called[0] || number_in(calls, 6) != called[1])
        return;
    uint64_t caller[2] = {number_in(calls, 0), number_in(calls, 2)}, part = number_in(calls, 7);
    uint64_t amount = number_in(calls, 8);
    if (part > 0)
        amount = weighed(part - 1, amount);
    add_to(sums_of(&sums, caller) + (part == 0), amount);
    add_to(&totals[part == 0], amount);
}

/* A statement that reads rows: those of a run, if it asks for one, and of the called function, if it does. */
static sqlite3_stmt *rows_of(const char *text, uint64_t run)
{
    sqlite3_stmt *rows = prepared(text);
    if (sqlite3_bind_parameter_count(rows) >= 1)
        must(sqlite3_bind_int64(rows, 1, (int64_t)run), SQLITE_OK);
    if (sqlite3_bind_parameter_count(rows) == 3)
        for (int part = 0; part < 2; part++)
            must(sqlite3_bind_int64(rows, 2 + part, (int64_t)called[part]), SQLITE_OK);
    return rows;
}

/* Gives the rows of a run that a statement reads to what takes them, one by one. */
static void each_row(const char *text, uint64_t run, void (*take)(sqlite3_stmt *row))
{
    sqlite3_stmt *rows = rows_of(text, run);
    while (has_row(rows))
        take(rows);
    sqlite3_finalize(rows);
}

/* The same of all rows of a table; the column says of which run each is. */
static void each_row_of_all(const char *text, int column, void (*take)(sqlite3_stmt *row))
{
    sqlite3_stmt *rows = rows_of(text, 0);
    while (has_row(rows)) {
        counts = counts_of_runs[number_in(rows, column)];
        take(rows);
    }
    sqlite3_finalize(rows);
}

/* The statement that reads the calls from which callers are added up. */
static const char *calls_to(void)
{
    return (are_sought ? CALLS_SOUGHT : CALLS)[reading];
}

/* Adds up a run. Answers whether it has the event; one without it adds no more than the number of its
   calls. */
static int add_run(uint64_t run)
{
    if (question == CSV) {
        read_event_places(run);
        each_row(CELLS[reading], run, add_cell_of_event);
        return 1;
    }
    int has_event = read_counts(run);
    if (reading == WHOLE_TABLE)
        return has_event;
    if (question == CALLERS)
        each_row(calls_to(), run, add_caller);
    else if (has_event)
        each_row(CELLS[reading], run, add_cell);
    if (question == INCLUSIVE && has_event)
        each_row(CALLS[reading], run, add_outward);
    return has_event;
}

/* Adds up all runs in one pass over each table. */
static void add_tables(void)
{
    if (question == CALLERS)
        each_row_of_all(calls_to(), CALL_RUN, add_caller);
    else
        each_row_of_all(CELLS[WHOLE_TABLE], CELL_RUN, add_cell);
    if (question == INCLUSIVE)
        each_row_of_all(CALLS[WHOLE_TABLE], CALL_RUN, add_outward);
}

/* Adds up all runs, or the one that is asked. Answers whether one has the event. */
static int add_runs(void)
{
    int has_event = 0;
    sqlite3_stmt *runs = prepared("SELECT run, kind FROM run ORDER BY run");
    while (has_row(runs)) {
        if (only_run != 0 && only_run != number_in(runs, 0))
            continue;
        if ((question == INCLUSIVE || question == CSV) && number_in(runs, 1) != 1)
            fail("folded stacks");
        has_event |= add_run(number_in(runs, 0));
    }
    sqlite3_finalize(runs);
    if (reading == WHOLE_TABLE)
        add_tables();
    return has_event;
}

/* Makes room for what is counted of each run. */
static void make_counts(void)
{
    sqlite3_stmt *last = prepared("SELECT coalesce(max(run), 0) FROM run");
    if (!has_row(last))
        fail("no number");
    counts_of_runs = zeroed(number_in(last, 0) + 1, sizeof *counts_of_runs);
    sqlite3_finalize(last);
}

static void print_runs(void)
{
    sqlite3_stmt *runs = prepared("SELECT run, kind, lower(hex(digest)), label FROM run ORDER BY run");
    while (has_row(runs))
        printf("%llu %s %s %s\n", (unsigned long long)number_in(runs, 0),
               number_in(runs, 1) == 1 ? "callgrind" : "folded", (const char *)sqlite3_column_text(runs, 2),
               (const char *)sqlite3_column_text(runs, 3));
    sqlite3_finalize(runs);
}

/* The number of a name, or 0. */
static uint64_t number_of_name(const char *name)
{
    sqlite3_stmt *find = prepared("SELECT id FROM name WHERE bytes = ?");
    must(sqlite3_bind_blob64(find, 1, name, strlen(name), SQLITE_STATIC), SQLITE_OK);
    uint64_t number = has_row(find) ? number_in(find, 0) : 0;
    sqlite3_finalize(find);
    return number;
}

/* Makes of two sums how far they are apart, and whether the first is below the second. */
static void subtract(uint64_t pair[2])
{
    int below = pair[0] < pair[1];
    pair[0] = below ? pair[1] - pair[0] : pair[0] - pair[1];
    pair[1] = (uint64_t)below;
}

/* Leaves the differences of the keys whose two sums differ, and that of the totals. */
static void subtract_sums(void)
{
    size_t left = 0;
    for (size_t k = 0; k < sums.count; k++) {
        uint64_t *row = sums.words + k * sums.width;
        subtract(row + sums.key);
        if (row[sums.key] > 0)
            memmove(sums.words + left++ * sums.width, row, sums.width * sizeof *row);
    }
    sums.count = left;
    subtract(totals);
}

/* Keeps the name that a row has in a column, under its number. */
static void keep_name(uint64_t number, sqlite3_stmt *row, int column)
{
    size_t length = (size_t)sqlite3_column_bytes(row, column);
    char *bytes = resized(NULL, length + 1, 1);
    if (length > 0)
        memcpy(bytes, sqlite3_column_blob(row, column), length);
    names[number] = (struct text){bytes, length};
}

static void read_all_names(void)
{
    sqlite3_stmt *all = prepared("SELECT id, bytes FROM name");
    while (has_row(all))
        keep_name(number_in(all, 0), all, 1);
    sqlite3_finalize(all);
}

/* Reads a name by its number, unless it is there. */
static void read_name(sqlite3_stmt *find, uint64_t number)
{
    if (names[number].at != NULL)
        return;
    must(sqlite3_bind_int64(find, 1, (int64_t)number), SQLITE_OK);
    if (has_row(find))
        keep_name(number, find, 0);
    must(sqlite3_reset(find), SQLITE_OK);
}

/* Reads the names of the keys that are printed: one by one where they are few. */
static void read_names(void)
{
    sqlite3_stmt *last = prepared("SELECT coalesce(max(id), 0) FROM name");
    if (!has_row(last))
        fail("no number");
    uint64_t greatest = number_in(last, 0);
    names = zeroed(greatest + 1, sizeof *names);
    sqlite3_finalize(last);
    if (question == CSV || sums.count * 4 > greatest) {
        read_all_names();
        return;
    }
    sqlite3_stmt *find = prepared("SELECT bytes FROM name WHERE id = ?");
    for (int part = 0; part < 2; part++) {
        if (question == CALLERS)
            read_name(find, called[part]);
        if (part == 0 || key == FUNCTION)
            for (size_t k = 0; k < sums.count; k++)
                read_name(find, sums.words[k * sums.width + (size_t)part]);
    }
    sqlite3_finalize(find);
}

static int name_order(struct text a, struct text b)
{
    int first = memcmp(a.at, b.at, a.length < b.length ? a.length : b.length);
    return first != 0 ? first : (a.length > b.length) - (a.length < b.length);
}

/* The greatest cost first; of equal ones by the parts of the key. */
static int row_order(const void *first, const void *second)
{
    const uint64_t *a = first, *b = second;
    if (a[2] != b[2])
        return a[2] < b[2] ? 1 : -1;
    int order = name_order(names[a[0]], names[b[0]]);
    if (order != 0 || key == OBJECT || key == SOURCE)
        return order;
    return key == FUNCTION ? name_order(names[a[1]], names[b[1]]) : (a[1] > b[1]) - (a[1] < b[1]);
}

/* By the names of the place, its line, and the name of the event. */
static int place_order(const void *first, const void *second)
{
    const uint64_t *a = first, *b = second;
    for (int k = 0; k < 3; k++) {
        int order = a[k] == b[k] ? 0 : name_order(names[a[k]], names[b[k]]);
        if (order != 0)
            return order;
    }
    return a[3] != b[3] ? (a[3] > b[3]) - (a[3] < b[3]) : name_order(events[a[4]], events[b[4]]);
}

static int needs_quotes(struct text field)
{
    size_t k = 0;
    while (k < field.length && memchr("\",\r\n", field.at[k], 4) == NULL)
        k++;
    return k < field.length;
}

/* A field of RFC 4180: in quotes where it must be. */
static void print_field(struct text field)
{
    if (!needs_quotes(field)) {
        fwrite_unlocked(field.at, 1, field.length, stdout);
        return;
    }
    putc_unlocked('"', stdout);
    for (size_t k = 0; k < field.length; k++) {
        if (field.at[k] == '"')
            putc_unlocked('"', stdout);
        putc_unlocked(field.at[k], stdout);
    }
    putc_unlocked('"', stdout);
}

static void print_csv(void)
{
    qsort(sums.words, sums.count, sums.width * sizeof *sums.words, place_order);
    puts("object,file,function,line,event,cost");
    for (size_t k = 0; k < sums.count; k++) {
        const uint64_t *row = sums.words + k * sums.width;
        for (int part = 0; part < 3; part++) {
            print_field(names[row[part]]);
            putc_unlocked(',', stdout);
        }
        printf("%llu,", (unsigned long long)row[3]);
        print_field(events[row[4]]);
        printf(",%llu\n", (unsigned long long)row[5]);
    }
}

static void print_name(struct text name)
{
    for (size_t k = 0; k < name.length; k++) {
        unsigned char byte = (unsigned char)name.at[k];
        if (byte == '\\')
            fputs("\\\\", stdout);
        else if (byte < 32 || byte == 127)
            printf("\\x%02x", byte);
        else
            putc_unlocked(byte, stdout);
    }
}

static void print_key(const uint64_t parts[2])
{
    print_name(names[parts[0]]);
    if (key == LINE)
        printf(":%llu", (unsigned long long)parts[1]);
    if (key == FUNCTION) {
        putc_unlocked(':', stdout);
        print_name(names[parts[1]]);
    }
}

/* A cost, and its part of the total in percent; or the number of its calls; or a difference. */
static void print_figures(const uint64_t *figures)
{
    unsigned long long cost = figures[0];
    if (question == CALLERS) {
        printf("%llu %llu ", cost, (unsigned long long)figures[1]);
    } else if (question == SUBTRACT) {
        printf("%s%llu ", figures[1] ? "-" : "", cost);
    } else {
        unsigned __int128 scaled = (unsigned __int128)10000 * cost;
        unsigned long long part = totals[0] > 0 ? (unsigned long long)(scaled / totals[0]) : 0;
        printf("%llu %llu.%02llu%% ", cost, part / 100, part % 100);
    }
}

static void print_head(void)
{
    printf("%s ", QUESTION_NAMES[question]);
    if (question == BY || question == SUBTRACT)
        printf("%s ", KEY_NAMES[key]);
    print_name(event);
    if (question == CALLERS) {
        putc_unlocked(' ', stdout);
        print_key(called);
    }
    putc_unlocked('\n', stdout);
    print_figures(totals);
    puts("total");
}

static void print_report(void)
{
    uint64_t rest = totals[0];
    qsort(sums.words, sums.count, sums.width * sizeof *sums.words, row_order);
    print_head();
    for (size_t k = 0; k < sums.count; k++) {
        const uint64_t *row = sums.words + k * sums.width;
        print_figures(row + sums.key);
        print_key(row);
        putc_unlocked('\n', stdout);
        rest -= row[sums.key];
    }
    if (question == BY) {
        print_figures(&rest);
        puts("(rest)");
    }
}

/* The place of a word among others, or their number. */
static int place_of(const char *word, const char *const *words, int count)
{
    int place = 0;
    while (place < count && strcmp(word, words[place]) != 0)
        place++;
    return place;
}

/* Reads the words of a question. Answers whether they are of one. */
static int read_words(int argc, char **argv)
{
    if (argc < 4)
        return 0;
    event = (struct text){argv[2], strlen(argv[2])};
    question = place_of(argv[3], QUESTION_NAMES, QUESTIONS);
    if (question == QUESTIONS || argc != 4 + WORDS_BEHIND[question])
        return 0;
    sums.key = question == CSV ? 5 : 2;
    sums.width = question == CALLERS || question == SUBTRACT ? 4 : sums.key + 1;
    if (question == BY || question == SUBTRACT)
        key = place_of(argv[4], KEY_NAMES, KEYS);
    return key < KEYS;
}

/* Adds up all that a question asks of. Answers whether a run has the event. */
static int add_all(char **words)
{
    if (question == CALLERS) {
        called[0] = number_of_name(words[0]);
        called[1] = number_of_name(words[1]);
    }
    int has_event = add_runs();
    if (question == SUBTRACT) {
        side = 1;
        if (reading == WHOLE_TABLE)
            reading = BY_INDEX;
        has_event |= add_run(strtoull(words[1], NULL, 10));
        subtract_sums();
    }
    return has_event;
}

/* Reads the options, and answers how many words they are, or -1. */
static int read_options(int argc, char **argv)
{
    int at = 1;
    for (; at + 1 < argc && strncmp(argv[at], "--", 2) == 0; at += 2) {
        if (strcmp(argv[at], "--run") == 0)
            only_run = strtoull(argv[at + 1], NULL, 10);
        else if (strcmp(argv[at], "--rows") == 0)
            reading = place_of(argv[at + 1], READING_NAMES, READINGS);
        else if (strcmp(argv[at], "--calls") == 0)
            are_sought = strcmp(argv[at + 1], "sought") == 0;
        else
            return -1;
    }
    return reading < READINGS && (only_run == 0 || reading != WHOLE_TABLE) ? at - 1 : -1;
}

int main(int argc, char **argv)
{
    int options = read_options(argc, argv);
    if (options < 0 || !read_words(argc - options, argv + options)
        || (reading == WHOLE_TABLE && (question == CSV || question == RUNS))) {
        fprintf(stderr, "usage: reports [--run RUN] [--rows index|table] [--calls all|sought] DATABASE EVENT by KEY | inclusive"
                        " | callers OBJECT FUNCTION | subtract KEY RUN | csv | runs;"
                        " a KEY is object, file, function or line\n");
        return 2;
    }
    argv += options;
    must(sqlite3_open_v2(argv[1], &db, SQLITE_OPEN_READWRITE, NULL), SQLITE_OK);
    if (question == RUNS) {
        print_runs();
        must(sqlite3_close(db), SQLITE_OK);
        return 0;
    }
    make_counts();
    if (!add_all(argv + 4)) {
        puts("refused: no such event");
        return 1;
    }
    if (question == CALLERS && (called[0] == 0 || called[1] == 0)) {
        puts("refused: no such name");
        return 1;
    }
    read_names();
    if (question == CSV)
        print_csv();
    else
        print_report();
    must(sqlite3_close(db), SQLITE_OK);
    return 0;
}
