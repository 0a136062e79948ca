/* The plain counterpart of an import: C over libsqlite3, without proofs. It does what
   `profhouse import --db DATABASE FILE` does with a Callgrind file and a new database: it reads the
   file in pieces of 65,536 bytes, takes their SHA-256, merges the costs and the calls of equal places,
   and writes them into the tables of a store of schema 2, references enforced, in one transaction:
   rows in the order of their keys, fifty in a prepared statement.

   import_file.c reads the lines, import_rows.c has the digest (plain C, of no library) and the hash
   tables of names, cells and calls, which are sorted once the file has ended.

   A file with a fault ends the program, with one of its faults. Left out is what a dump of valgrind
   never needs: `event:` lines (their form is not looked at, and a formula ends the program), stated
   totals of 2^64 or more, and the limit of a file's length; `thread:` lines, of which it has none where
   threads are not kept apart: all cells stand under thread 0; and the questions whether the store holds
   the digest and has room for the sums, which a new one answers at once. */

#include "import.h"
#include <sqlite3.h>
#include <stdio.h>
#include <stdlib.h>
#include <string.h>
#include <time.h>
#include <unistd.h>

enum { ROWS = 50 };

static const char *const TABLES[] = {
    "CREATE TABLE meta (id INTEGER PRIMARY KEY CHECK (id = 1), schema INTEGER NOT NULL,"
    " next_run INTEGER NOT NULL) STRICT",
    "CREATE TABLE run (run INTEGER PRIMARY KEY, kind INTEGER NOT NULL, digest BLOB NOT NULL UNIQUE,"
    " label TEXT NOT NULL, call_count INTEGER NOT NULL) STRICT",
    "CREATE TABLE run_event (run INTEGER NOT NULL REFERENCES run ON DELETE CASCADE,"
    " pos INTEGER NOT NULL, name BLOB NOT NULL, self_cost INTEGER NOT NULL,"
    " call_cost INTEGER NOT NULL, stated TEXT, PRIMARY KEY (run, pos), UNIQUE (run, name)) STRICT",
    "CREATE TABLE derived (run INTEGER NOT NULL REFERENCES run ON DELETE CASCADE,"
    " pos INTEGER NOT NULL, name BLOB NOT NULL, PRIMARY KEY (run, pos), UNIQUE (run, name)) STRICT",
    "CREATE TABLE coef (run INTEGER NOT NULL REFERENCES run ON DELETE CASCADE, pos INTEGER NOT NULL,"
    " event INTEGER NOT NULL, n INTEGER NOT NULL, PRIMARY KEY (run, pos, event)) STRICT",
    "CREATE TABLE name (id INTEGER PRIMARY KEY, bytes BLOB NOT NULL UNIQUE) STRICT",
    "CREATE TABLE thread_cell (run INTEGER NOT NULL REFERENCES run ON DELETE CASCADE,"
    " thread INTEGER NOT NULL, ob INTEGER NOT NULL, fl INTEGER NOT NULL, fn INTEGER NOT NULL,"
    " line INTEGER NOT NULL, event INTEGER NOT NULL, cost INTEGER NOT NULL,"
    " PRIMARY KEY (run, fn, line, fl, ob, thread, event)) STRICT",
    "CREATE TABLE arc (run INTEGER NOT NULL REFERENCES run ON DELETE CASCADE, ob INTEGER NOT NULL,"
    " fl INTEGER NOT NULL, fn INTEGER NOT NULL, line INTEGER NOT NULL, cob INTEGER NOT NULL,"
    " cfl INTEGER NOT NULL, cfn INTEGER NOT NULL, part INTEGER NOT NULL, n INTEGER NOT NULL,"
    " PRIMARY KEY (run, ob, fl, fn, line, cob, cfl, cfn, part)) STRICT",
    "CREATE TABLE stack (run INTEGER NOT NULL REFERENCES run ON DELETE CASCADE,"
    " frames BLOB NOT NULL, n INTEGER NOT NULL, PRIMARY KEY (run, frames)) STRICT",
    "CREATE TABLE grp (name TEXT NOT NULL PRIMARY KEY,"
    " baseline INTEGER REFERENCES run ON DELETE SET NULL) STRICT",
    "CREATE TABLE member (grp TEXT NOT NULL REFERENCES grp ON DELETE CASCADE,"
    " run INTEGER NOT NULL REFERENCES run ON DELETE CASCADE, PRIMARY KEY (grp, run)) STRICT"};

static sqlite3 *db;

/* Ends the program unless a call gave what it should. */
static void must(int got, int want)
{
    if (got != want)
        fail(sqlite3_errmsg(db));
}

static void run_text(const char *text)
{
    must(sqlite3_exec(db, text, NULL, NULL, NULL), SQLITE_OK);
}

static sqlite3_stmt *prepared(const char *text)
{
    sqlite3_stmt *statement;
    must(sqlite3_prepare_v2(db, text, -1, &statement, NULL), SQLITE_OK);
    return statement;
}

/* Runs a statement that gives no rows, and readies it for the next time. */
static void run_once(sqlite3_stmt *statement)
{
    must(sqlite3_step(statement), SQLITE_DONE);
    must(sqlite3_reset(statement), SQLITE_OK);
}

static void bind_number(sqlite3_stmt *statement, int column, uint64_t number)
{
    must(sqlite3_bind_int64(statement, column, (int64_t)number), SQLITE_OK);
}

static void bind_bytes(sqlite3_stmt *statement, int column, const void *bytes, size_t length)
{
    must(sqlite3_bind_blob64(statement, column, bytes, length, SQLITE_STATIC), SQLITE_OK);
}

/* A statement that inserts so many rows of so many columns. */
static sqlite3_stmt *insert_of(const char *table, int columns, int rows)
{
    static char text[4096];
    size_t used = (size_t)snprintf(text, sizeof text, "INSERT INTO %s VALUES ", table);
    for (int k = 0; k < rows * columns; k++) {
        const char *before = k % columns ? "," : k ? "),(" : "(";
        used += (size_t)snprintf(text + used, sizeof text - used, "%s?", before);
    }
    snprintf(text + used, sizeof text - used, ")");
    return prepared(text);
}

/* Rows of numbers, which are inserted fifty at a time, and the rest one by one. */
struct inserter {
    sqlite3_stmt *many, *one;
    int columns, held;
    uint64_t values[ROWS * 10];
};

static struct inserter inserter_into(const char *table, int columns)
{
    struct inserter made = {.columns = columns};
    made.many = insert_of(table, columns, ROWS);
    made.one = insert_of(table, columns, 1);
    return made;
}

static void insert_values(sqlite3_stmt *statement, const uint64_t *values, int count)
{
    for (int k = 0; k < count; k++)
        bind_number(statement, k + 1, values[k]);
    run_once(statement);
}

static void insert_row(struct inserter *into, const uint64_t *values)
{
    size_t size = (size_t)into->columns * sizeof *values;
    memcpy(into->values + into->held * into->columns, values, size);
    if (++into->held == ROWS) {
        insert_values(into->many, into->values, ROWS * into->columns);
        into->held = 0;
    }
}

static void finish_rows(struct inserter *into)
{
    for (int row = 0; row < into->held; row++)
        insert_values(into->one, into->values + row * into->columns, into->columns);
    sqlite3_finalize(into->many);
    sqlite3_finalize(into->one);
}

static void make_tables(void)
{
    for (size_t k = 0; k < sizeof TABLES / sizeof *TABLES; k++)
        run_text(TABLES[k]);
    run_text("INSERT INTO meta VALUES (1, 2, 1)");
}

static void write_run(const char *label)
{
    sqlite3_stmt *run = prepared("INSERT INTO run VALUES (1, 1, ?, ?, ?)");
    run_text("UPDATE meta SET next_run = 2");
    bind_bytes(run, 1, file.digest, sizeof file.digest);
    must(sqlite3_bind_text(run, 2, label, -1, SQLITE_STATIC), SQLITE_OK);
    bind_number(run, 3, file.call_sums[0]);
    run_once(run);
    sqlite3_finalize(run);
}

static void write_events(void)
{
    sqlite3_stmt *event = prepared("INSERT INTO run_event VALUES (1, ?, ?, ?, ?, ?)");
    const struct totals *stated = file.totals.given ? &file.totals : &file.summary;
    for (size_t k = 0; k < file.event_count; k++) {
        char text[24];
        snprintf(text, sizeof text, "%llu", (unsigned long long)stated->sums[k]);
        bind_number(event, 1, k);
        bind_bytes(event, 2, file.events[k].at, file.events[k].length);
        bind_number(event, 3, file.self_sums[k]);
        bind_number(event, 4, file.call_sums[k + 1]);
        if (stated->given)
            must(sqlite3_bind_text(event, 5, text, -1, SQLITE_TRANSIENT), SQLITE_OK);
        run_once(event);
    }
    sqlite3_finalize(event);
}

/* The number of a name in the table: a look-up, then an insertion if it is new. */
static uint64_t interned(sqlite3_stmt *find, sqlite3_stmt *add, struct text name)
{
    bind_bytes(find, 1, name.at, name.length);
    int found = sqlite3_step(find);
    uint64_t number = (uint64_t)sqlite3_column_int64(find, 0);
    must(sqlite3_reset(find), SQLITE_OK);
    if (found == SQLITE_ROW)
        return number;
    must(found, SQLITE_DONE);
    bind_bytes(add, 1, name.at, name.length);
    run_once(add);
    return (uint64_t)sqlite3_last_insert_rowid(db);
}

/* The numbers that the table has for the file's numbers of names. */
static uint64_t *write_names(void)
{
    sqlite3_stmt *find = prepared("SELECT id FROM name WHERE bytes = ?");
    sqlite3_stmt *add = prepared("INSERT INTO name (bytes) VALUES (?)");
    uint64_t *numbers = zeroed(count_of_numbers() + 1, sizeof *numbers);
    for (uint32_t k = 1; k <= count_of_numbers(); k++)
        numbers[k] = interned(find, add, numbered_name(k));
    sqlite3_finalize(find);
    sqlite3_finalize(add);
    return numbers;
}

/* Writes the costs above 0 of a place. */
static void write_cell(struct inserter *into, const uint64_t *row, const uint64_t *numbers)
{
    for (size_t event = 0; event < file.event_count; event++) {
        uint64_t cost = row[file.cells.key + event];
        uint64_t values[] = {1, 0, numbers[row[0]], numbers[row[1]], numbers[row[2]], row[3], event, cost};
        if (cost > 0)
            insert_row(into, values);
    }
}

static void write_cells(const uint64_t *numbers)
{
    struct inserter into = inserter_into("thread_cell", 8);
    sort_rows(&file.cells);
    for (size_t k = 0; k < file.cells.count; k++)
        write_cell(&into, file.cells.words + k * file.cells.width, numbers);
    finish_rows(&into);
}

/* Writes the number of the calls, and their costs above 0. */
static void write_call(struct inserter *into, const uint64_t *row, const uint64_t *numbers)
{
    for (size_t part = 0; part <= file.event_count; part++) {
        uint64_t sum = row[file.calls.key + part];
        uint64_t values[] = {1, numbers[row[0]], numbers[row[1]], numbers[row[2]], row[3],
                             numbers[row[4]], numbers[row[5]], numbers[row[6]], part, sum};
        if (part == 0 || sum > 0)
            insert_row(into, values);
    }
}

static void write_calls(const uint64_t *numbers)
{
    struct inserter into = inserter_into("arc", 10);
    sort_rows(&file.calls);
    for (size_t k = 0; k < file.calls.count; k++)
        write_call(&into, file.calls.words + k * file.calls.width, numbers);
    finish_rows(&into);
}

/* Prints the processor seconds of a step, and returns those up to now. */
static double step(const char *name, double since)
{
    struct timespec now;
    clock_gettime(CLOCK_PROCESS_CPUTIME_ID, &now);
    double at = (double)now.tv_sec + (double)now.tv_nsec / 1e9;
    printf("%-7s %.4f s\n", name, at - since);
    return at;
}

int main(int argc, char **argv)
{
    if (argc != 3) {
        fprintf(stderr, "usage: import DATABASE FILE; the database is replaced\n");
        return 2;
    }
    read_file(argv[2]);
    double at = step("read", 0);
    unlink(argv[1]);
    must(sqlite3_open(argv[1], &db), SQLITE_OK);
    run_text("PRAGMA foreign_keys = ON");
    run_text("BEGIN");
    make_tables();
    write_run(argv[2]);
    write_events();
    at = step("head", at);
    uint64_t *numbers = write_names();
    at = step("names", at);
    write_cells(numbers);
    at = step("cells", at);
    write_calls(numbers);
    at = step("arcs", at);
    run_text("COMMIT");
    must(sqlite3_close(db), SQLITE_OK);
    step("commit", at);
    free(numbers);
    printf("%u names, %zu places, %zu calls\n", count_of_numbers(), file.cells.count, file.calls.count);
    return 0;
}
