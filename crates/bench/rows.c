/* The row changes of a desk by libsqlite3: what ./bench holds the desk's times against.

   rows FILE moves COUNT [reading]    so many journeys go through a step of one night and back, then as many
                                      through one of 30 nights
   rows FILE loads COUNT [reading]    so many batches of 2,000 new rows are loaded
   rows FILE known COUNT [reading]    the same, each after the first with the cells of the first and other places

   It makes FILE, which is not there yet, and prints a line for each kind of event: its name, how many there
   were, and how many microseconds of the processor one took; of loads the shortest time. With the word
   `reading` each event first reads what a desk has to read for its decision.

   The program http.c has the same rows: it is compiled with this file in front of it, without its `main`.

   The tables and rows are those of docs/FORMATS.md. Statements are prepared once; each event is one
   transaction, in WAL mode with synchronous FULL and foreign keys on, as the desk has them. */
#include <sqlite3.h>
#include <stdio.h>
#include <stdlib.h>
#include <string.h>
#include <time.h>

enum { ROWS = 2000, PLACES = 100000, FIRST = 22066 /* 2030-06-01, in days from 1970-01-01 */ };

/* the statements */
enum {
  BEGIN, COMMIT, META, PUT, BATCH, JOURNEY, STEP, TAKEN, MOVE, ENTRY, UNMARK, ANSWER,
  READ_META, READ_JOURNEY, READ_OPTIONS, READ_NIGHTS, READ_BATCH, READ_ANSWER, UNFINISHED, STATEMENTS
};
static const char *const texts[STATEMENTS] = {
  [BEGIN] = "BEGIN",
  [COMMIT] = "COMMIT",
  [META] = "UPDATE meta SET version = 2, events = ?1, journeys = ?2 WHERE one = 1",
  [PUT] = "INSERT INTO stock VALUES (?1, ?2, ?3, ?4, ?5, ?6) ON CONFLICT(kind, supplier, product, night) "
          "DO UPDATE SET allot = excluded.allot, free = excluded.free",
  [BATCH] = "INSERT INTO batch VALUES (?1, ?2, ?3)",
  [JOURNEY] = "INSERT INTO journey VALUES (?1, ?2, ?4, ?3, 0, 0, 0, 0, 0)",
  [STEP] = "INSERT INTO step VALUES (?1, ?2, 1, 0, 0, ?3, ?4, ?5, ?6, ?7, 1)",
  [TAKEN] = "UPDATE step SET taken = ?3 WHERE journey = ?1 AND place = ?2 AND opt = 1",
  [MOVE] = "UPDATE journey SET pos = ?2, phase = ?3, target = 0, used = ?4 WHERE id = ?1",
  [ENTRY] = "INSERT INTO entry2 VALUES (?1, ?2, ?3, ?4, ?5)",
  [UNMARK] = "DELETE FROM mark WHERE journey = ?1 AND pos = 1",
  [ANSWER] = "INSERT INTO answer VALUES (?1, ?2, ?4, ?3)",
  [READ_META] = "SELECT version, events, journeys FROM meta WHERE one = 1",
  [READ_JOURNEY] = "SELECT id, num, agent, steps, tries, pos, phase, target, used FROM journey "
                   "WHERE id = ?1",
  [READ_OPTIONS] = "SELECT place, opt, save, taken, kind, supplier, product, night, nights, places "
                   "FROM step WHERE journey = ?1 AND place = ?2 ORDER BY place, opt",
  [READ_NIGHTS] = "SELECT night, allot, free FROM stock WHERE kind = ?1 AND supplier = ?2 AND product = ?3 "
                  "AND night BETWEEN ?4 AND ?5 ORDER BY night",
  [READ_BATCH] = "SELECT num, content FROM batch WHERE name = ?1",
  [READ_ANSWER] = "SELECT ask, reply FROM answer WHERE agent = ?1 AND mark = ?2",
  [UNFINISHED] = "SELECT id, num, agent, steps, tries, pos, phase, target, used FROM journey "
                 "WHERE id > ?1 AND phase <= 1 ORDER BY id",
};
static const char tables[] =
  "PRAGMA journal_mode = WAL; PRAGMA synchronous = FULL; PRAGMA foreign_keys = ON; BEGIN;"
  "CREATE TABLE meta(one INTEGER PRIMARY KEY CHECK(one = 1), version INTEGER NOT NULL, "
  "events INTEGER NOT NULL, journeys INTEGER NOT NULL) STRICT;"
  "CREATE TABLE stock(kind INTEGER NOT NULL CHECK(kind BETWEEN 0 AND 3), supplier TEXT NOT NULL, "
  "product TEXT NOT NULL, night INTEGER NOT NULL, allot INTEGER NOT NULL, "
  "free INTEGER NOT NULL CHECK(free >= 0 AND free <= allot), "
  "PRIMARY KEY(kind, supplier, product, night)) STRICT;"
  "CREATE TABLE batch(name TEXT NOT NULL PRIMARY KEY, num INTEGER NOT NULL UNIQUE, "
  "content BLOB NOT NULL) STRICT;"
  "CREATE TABLE journey(id INTEGER PRIMARY KEY, num INTEGER NOT NULL UNIQUE, agent TEXT NOT NULL, "
  "steps INTEGER NOT NULL, tries INTEGER NOT NULL, pos INTEGER NOT NULL, "
  "phase INTEGER NOT NULL CHECK(phase BETWEEN 0 AND 3), target INTEGER NOT NULL, "
  "used INTEGER NOT NULL) STRICT;"
  "CREATE TABLE step(journey INTEGER NOT NULL REFERENCES journey(id), place INTEGER NOT NULL, "
  "opt INTEGER NOT NULL, save INTEGER NOT NULL CHECK(save IN (0, 1)), "
  "taken INTEGER NOT NULL CHECK(taken IN (0, 1)), "
  "kind INTEGER NOT NULL, supplier TEXT NOT NULL, product TEXT NOT NULL, night INTEGER NOT NULL, "
  "nights INTEGER NOT NULL, places INTEGER NOT NULL, PRIMARY KEY(journey, place, opt)) STRICT;"
  "CREATE TABLE entry(num INTEGER PRIMARY KEY, journey INTEGER NOT NULL REFERENCES journey(id), "
  "item INTEGER NOT NULL CHECK(item BETWEEN 0 AND 2), a INTEGER NOT NULL, b INTEGER NOT NULL) STRICT;"
  "CREATE TABLE answer(agent TEXT NOT NULL, mark TEXT NOT NULL, ask BLOB NOT NULL, "
  "reply TEXT NOT NULL, PRIMARY KEY(agent, mark)) STRICT;"
  "CREATE TABLE entry2(num INTEGER PRIMARY KEY, journey INTEGER NOT NULL REFERENCES journey(id), "
  "item INTEGER NOT NULL CHECK(item BETWEEN 0 AND 3), a INTEGER NOT NULL, b INTEGER NOT NULL) STRICT;"
  "CREATE TABLE mark(journey INTEGER NOT NULL REFERENCES journey(id), pos INTEGER NOT NULL, "
  "PRIMARY KEY(journey, pos)) STRICT;"
  "CREATE INDEX journey_agent ON journey(agent, id);"
  "INSERT INTO meta VALUES (1, 2, 0, 0); COMMIT";

/* a product over some nights, which the first step of a journey wants; each has so many free places */
struct want {
  int kind, first, nights, free;
  const char *letter, *supplier, *product;
};

static sqlite3 *db;
static sqlite3_stmt *statements[STATEMENTS];
static int reads, events, journeys;
/* how many places each cell of a batch gets */
static int places = PLACES;

static void fail(void) {
  fprintf(stderr, "rows: %s\n", db ? sqlite3_errmsg(db) : "out of memory");
  exit(1);
}

/* Runs a statement with these parameters: i a number, t a text. All its rows are gone through. */
static void run(int which, const char *kinds, const long *numbers, const char *const *words) {
  sqlite3_stmt *statement = statements[which];
  int status;
  for (int at = 0; kinds[at]; at++) {
    status = kinds[at] == 'i' ? sqlite3_bind_int64(statement, at + 1, *numbers++)
                              : sqlite3_bind_text(statement, at + 1, *words++, -1, SQLITE_STATIC);
    if (status != SQLITE_OK) fail();
  }
  do status = sqlite3_step(statement);
  while (status == SQLITE_ROW);
  if (status != SQLITE_DONE || sqlite3_reset(statement) != SQLITE_OK) fail();
}
#define RUN(which, kinds, ...) run(which, kinds, (const long[]){__VA_ARGS__}, NULL)

static void put(const struct want *want, long night, long free) {
  run(PUT, "ittiii", (const long[]){want->kind, night, places, free},
      (const char *const[]){want->supplier, want->product});
}

static void read_nights(const struct want *want, long first, long last) {
  run(READ_NIGHTS, "ittii", (const long[]){want->kind, first, last},
      (const char *const[]){want->supplier, want->product});
}

/* what a desk reads of a step */
static void read_step(long id, int place) {
  if (!reads) return;
  RUN(READ_META, "", 0);
  RUN(READ_JOURNEY, "i", id);
  RUN(READ_OPTIONS, "ii", id, place);
}

/* Loads a batch: so many nights of each of these products. */
static void load(const char *name, const struct want *wants, int products) {
  static char content[ROWS * 40];
  int length = 0;
  if (reads) {
    RUN(READ_META, "", 0);
    run(READ_BATCH, "t", NULL, &name);
  }
  for (const struct want *want = wants; want < wants + products; want++)
    for (int night = want->first; night < want->first + want->nights; night++) {
      time_t seconds = night * 86400L;
      length += sprintf(content + length, "%s/%s/%s/", want->letter, want->supplier, want->product);
      length += strftime(content + length, 11, "%Y-%m-%d", gmtime(&seconds));
      length += sprintf(content + length, "/%d\n", places);
      if (reads) read_nights(want, night, night);
    }
  RUN(BEGIN, "", 0);
  sqlite3_stmt *batch = statements[BATCH];
  if (sqlite3_bind_blob(batch, 3, content, length, SQLITE_STATIC) != SQLITE_OK) fail();
  run(BATCH, "ti", (const long[]){++events}, &name);
  for (const struct want *want = wants; want < wants + products; want++)
    for (int night = want->first; night < want->first + want->nights; night++) put(want, night, places);
  RUN(META, "ii", events, journeys);
  RUN(COMMIT, "", 0);
}

/* Begins a journey of two steps, of which the second will not fit. */
static void begin(const struct want *want) {
  if (reads) RUN(READ_META, "", 0);
  RUN(BEGIN, "", 0);
  run(JOURNEY, "iiit", (const long[]){++journeys, ++events, 2}, (const char *const[]){"desk"});
  run(STEP, "iiittii", (const long[]){journeys, 1, want->kind, want->first, want->nights},
      (const char *const[]){want->supplier, want->product});
  run(STEP, "iiittii", (const long[]){journeys, 2, 0, FIRST, 1}, (const char *const[]){"NO", "NONE"});
  RUN(META, "ii", events, journeys);
  RUN(COMMIT, "", 0);
}

/* the rows of an item, and of where its journey is then */
static void put_item(long id, long item, long a, long b, long pos, long phase, long used) {
  RUN(MOVE, "iiii", id, pos, phase, used);
  RUN(ENTRY, "iiiii", ++events, id, item, a, b);
  RUN(META, "ii", events, journeys);
}

/* The same, with which the transaction ends. */
static void move(long id, long item, long a, long b, long pos, long phase, long used) {
  put_item(id, item, a, b, pos, phase, used);
  RUN(COMMIT, "", 0);
}

/* The first step takes its places. */
static void take(struct want *want, long id) {
  read_step(id, 1);
  if (reads) read_nights(want, want->first, want->first + want->nights - 1);
  RUN(BEGIN, "", 0);
  want->free--;
  for (int night = want->first; night < want->first + want->nights; night++) put(want, night, want->free);
  RUN(TAKEN, "iii", id, 1, 1);
  move(id, 0, 1, 1, 1, 0, 0);
}

/* The second step does not fit: the journey, which has no try left, turns back to its beginning. */
static void turn(struct want *want, long id) {
  static const struct want none = {0, FIRST, 1, 0, "F", "NO", "NONE"};
  (void)want;
  read_step(id, 2);
  if (reads) read_nights(&none, FIRST, FIRST);
  RUN(BEGIN, "", 0);
  move(id, 2, 0, 1, 1, 1, 1);
}

/* The first step is compensated, and the journey is undone. */
static void give(struct want *want, long id) {
  read_step(id, 1);
  RUN(BEGIN, "", 0);
  want->free++;
  for (int night = want->first; night < want->first + want->nights; night++) put(want, night, want->free);
  RUN(TAKEN, "iii", id, 1, 0);
  RUN(UNMARK, "i", id);
  move(id, 1, 1, 1, 0, 3, 1);
}

static double now(void) {
  struct timespec time;
  clock_gettime(CLOCK_PROCESS_CPUTIME_ID, &time);
  return time.tv_sec * 1e6 + time.tv_nsec / 1e3;
}

static void tell(const char *name, int nights, int count, double start) {
  printf("%s-%d %d %.1f\n", name, nights, count, (now() - start) / count);
}

/* Loads the nights of a want, each by a batch of one row, as the line `set` does. */
static void set(const struct want *want) {
  char name[24];
  for (int at = 0; at < want->nights; at++) {
    struct want night = *want;
    night.first += at;
    night.nights = 1;
    sprintf(name, "%s-%d", want->kind ? "room" : "flight", at + 1);
    load(name, &night, 1);
  }
}

/* So many journeys begin, and go through their first step and back. */
static void go(struct want *want, int count) {
  static const struct { const char *name; void (*event)(struct want *, long); } events_of[] = {
    {"T", take}, {"B", turn}, {"C", give}};
  int first = journeys + 1;
  double start = now();
  for (int at = 0; at < count; at++) begin(want);
  tell("begin", want->nights, count, start);
  for (int which = 0; which < 3; which++) {
    start = now();
    for (int at = 0; at < count; at++) events_of[which].event(want, first + at);
    tell(events_of[which].name, want->nights, count, start);
  }
}

/* Loads so many batches: 250 nights of eight products, which are new in each batch, or known after the first. */
static void load_batches(int count, int are_known) {
  char products[8][9], name[16];
  struct want wants[8];
  double shortest = 1e18;
  for (int batch = 0; batch < count; batch++) {
    for (int at = 0; at < 8; at++) {
      sprintf(products[at], "P%d%03d", at, are_known ? 0 : batch);
      wants[at] = (struct want){0, FIRST, 250, PLACES, "F", "LOAD", products[at]};
    }
    sprintf(name, "load-%d", batch);
    if (are_known) places = PLACES - batch;
    double start = now();
    load(name, wants, 8);
    double time = now() - start;
    if (time < shortest) shortest = time;
  }
  printf("load-%d %d %.1f\n", ROWS, count, shortest);
}

/* Makes a file with the tables, and prepares the statements. */
static void open_rows(const char *file) {
  if (sqlite3_open(file, &db) != SQLITE_OK) fail();
  if (sqlite3_exec(db, tables, NULL, NULL, NULL) != SQLITE_OK) fail();
  for (int at = 0; at < STATEMENTS; at++) {
    int status = sqlite3_prepare_v3(db, texts[at], -1, SQLITE_PREPARE_PERSISTENT, &statements[at], NULL);
    if (status != SQLITE_OK) fail();
  }
}

/* Closes the file, and gives the status with which the program ends. */
static int close_rows(void) {
  for (int at = 0; at < STATEMENTS; at++) sqlite3_finalize(statements[at]);
  return sqlite3_close(db) == SQLITE_OK ? 0 : 1;
}

#ifndef WITHOUT_MAIN
int main(int words, char **word) {
  struct want flight = {0, FIRST, 1, PLACES, "F", "AL", "A1"};
  struct want room = {1, FIRST, 30, PLACES, "R", "HOT", "DBL"};
  if (words < 4 || words > 5) {
    fprintf(stderr, "usage: rows FILE moves|loads|known COUNT [reading]\n");
    return 2;
  }
  reads = words == 5;
  open_rows(word[1]);
  if (strcmp(word[2], "moves") != 0) {
    load_batches(atoi(word[3]), strcmp(word[2], "known") == 0);
  } else {
    set(&flight);
    set(&room);
    go(&flight, atoi(word[3]));
    go(&room, atoi(word[3]));
  }
  return close_rows();
}
#endif
