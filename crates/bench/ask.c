/* Asks a server of the desk's requests over HTTP, and times it.

   ask PORT PID PAGES

   PORT is one of 127.0.0.1, and PID the process that serves it. All goes over one connection: each request is sent
   when the page of the one before has come in whole. `whole` requests go out by one write, `bytewise` ones by one
   write a byte. For each sort of request there are two lines: its name, how many there were in a round, and how many
   microseconds passed for one; and the same for the microseconds of the processor that the server took. Of several
   rounds the shortest counts; each goes through all sorts, so that a slow moment of the machine spoils one round of
   some and not all rounds of one. The requests of a round are made before the clock starts.

   The last page of each sort is written to the file PAGES. Any page but a good one ends the program.

   The program send.c is compiled with this file in front of it, without its `main`. */
#define _GNU_SOURCE /* memmem */
#include <arpa/inet.h>
#include <netinet/in.h>
#include <netinet/tcp.h>
#include <stdarg.h>
#include <stdio.h>
#include <stdlib.h>
#include <string.h>
#include <sys/socket.h>
#include <unistd.h>

#include "times.h"

/* how many journeys have not ended while GET is timed; how many begin for a round of steps; how many steps each has */
enum { FEW = 3, JOURNEYS = 10, STEPS = 24, ROUNDS = 6, MOST_REQUESTS = 1000,
       MOST_BYTES = 1 << 20, LONGEST_PAGE = 1 << 20 };

/* requests, one behind the other, with the end of each */
struct list {
  char text[MOST_BYTES];
  size_t ends[MOST_REQUESTS];
  int count;
};

/* a sort of request that is timed */
struct sort {
  const char *name;
  void (*make)(struct list *, const struct sort *);
  int count, is_bytewise;
  /* how long a head is, where that is told */
  int head;
  /* the shortest round: microseconds by the clock, and those of the server's processor */
  double passed, took;
};

static struct list list;
static char page[LONGEST_PAGE];
static size_t page_length;
static int stream, keys, journeys;
static const char *process;

static void stop(const char *why) {
  fprintf(stderr, "ask: %s\n", why);
  exit(1);
}

/* Puts one more request behind those of a list. */
static void add(struct list *list, const char *format, ...) {
  size_t start = list->count ? list->ends[list->count - 1] : 0;
  va_list values;
  va_start(values, format);
  int length = vsnprintf(list->text + start, MOST_BYTES - start, format, values);
  va_end(values);
  if (list->count == MOST_REQUESTS || start + (size_t)length >= MOST_BYTES) stop("too many requests in a list");
  list->ends[list->count++] = start + (size_t)length;
}

#define ASKER "Host: 127.0.0.1\r\nDesk-Agent: ann\r\n"

/* so many requests for the journeys that have not ended */
static void make_gets(struct list *list, const struct sort *sort) {
  for (int at = 0; at < sort->count; at++) add(list, "GET /unfinished HTTP/1.1\r\n" ASKER "\r\n");
}

/* the same, each with a head of just so many bytes */
static void make_heads(struct list *list, const struct sort *sort) {
  static char filling[8192];
  static const char front[] = "GET /unfinished HTTP/1.1\r\n" ASKER "Padding: ";
  memset(filling, 'x', sizeof filling);
  for (int at = 0; at < sort->count; at++)
    add(list, "%s%.*s\r\n\r\n", front, sort->head - (int)sizeof front + 1 - 4, filling);
}

/* A journey begins, whose steps take one night each. */
static void make_begin(struct list *list) {
  static const char option[] = "{\"options\":[{\"count\":1,\"first\":\"2030-06-01\",\"kind\":\"flight\",\"nights\":1,"
                               "\"product\":\"A1\",\"supplier\":\"AL\"}],\"save\":false}";
  char plan[STEPS * sizeof option + 64];
  int length = sprintf(plan, "{\"steps\":[%s", option);
  for (int at = 1; at < STEPS; at++) length += sprintf(plan + length, ",%s", option);
  length += sprintf(plan + length, "],\"tries\":0}");
  add(list, "POST /journeys HTTP/1.1\r\n" ASKER "Desk-Key: k%d\r\nContent-Length: %d\r\n\r\n%s", ++keys, length, plan);
  journeys++;
}

/* one step of each journey from this one on, in turn, until there are so many */
static void make_steps(struct list *list, int count, int first) {
  for (int at = 0; at < count; at++)
    add(list, "POST /journeys/%d/step HTTP/1.1\r\n" ASKER "Desk-Key: k%d\r\nContent-Length: 0\r\n\r\n",
        first + at % JOURNEYS, ++keys);
}

static void send_bytes(const char *bytes, size_t count) {
  while (count > 0) {
    ssize_t written = write(stream, bytes, count);
    if (written <= 0) stop("a write failed");
    bytes += written;
    count -= (size_t)written;
  }
}

/* The length of a page whose head has come in; 0 where it has not. */
static size_t length_of_page(void) {
  static const char status[] = "HTTP/1.1 200 ", length[] = "\r\nContent-Length: ";
  char *end = memmem(page, page_length, "\r\n\r\n", 4);
  if (!end) return 0;
  char *told = memmem(page, (size_t)(end - page), length, sizeof length - 1);
  if (strncmp(page, status, sizeof status - 1) != 0 || !told) stop(page);
  return (size_t)(end - page) + 4 + strtoul(told + sizeof length - 1, NULL, 10);
}

/* Reads a page, until it is whole. */
static void take_page(void) {
  size_t length = 0;
  for (page_length = 0; length == 0 || page_length < length; length = length_of_page()) {
    ssize_t count = read(stream, page + page_length, LONGEST_PAGE - 1 - page_length);
    if (count <= 0) stop("no page came");
    page_length += (size_t)count;
    page[page_length] = 0;
  }
  if (page_length > length) stop("more than a page came");
}

/* Sends each request of a list when the page of the one before is there. */
static void ask(const struct list *list, int is_bytewise) {
  size_t from = 0;
  for (int at = 0; at < list->count; from = list->ends[at++]) {
    size_t length = list->ends[at] - from;
    if (!is_bytewise) send_bytes(list->text + from, length);
    for (size_t byte = 0; is_bytewise && byte < length; byte++) send_bytes(list->text + from + byte, 1);
    take_page();
  }
}

/* Some journeys begin, which is not timed. */
static void begin(int count) {
  list.count = 0;
  for (int at = 0; at < count; at++) make_begin(&list);
  ask(&list, 0);
}

/* steps of journeys that begin before */
static void begin_and_make_steps(struct list *list, const struct sort *sort) {
  int first = journeys + 1;
  begin(JOURNEYS);
  list->count = 0;
  make_steps(list, sort->count, first);
}

/* Times a round of a sort. */
static void time_round(struct sort *sort) {
  list.count = 0;
  sort->make(&list, sort);
  double spent_before = spent(process), start = now();
  ask(&list, sort->is_bytewise);
  double passed = now() - start, took = spent(process) - spent_before;
  if (sort->passed == 0 || passed < sort->passed) sort->passed = passed;
  if (sort->took == 0 || took < sort->took) sort->took = took;
}

/* Times so many sorts, prints their shortest rounds, and writes their last pages. */
static void time_sorts(struct sort *sorts, int count, FILE *pages) {
  for (int round = 1; round <= ROUNDS; round++)
    for (struct sort *sort = sorts; sort < sorts + count; sort++) {
      time_round(sort);
      if (round == ROUNDS) fprintf(pages, "%s\n", page);
    }
  for (struct sort *sort = sorts; sort < sorts + count; sort++) {
    printf("%s %d %.1f\n", sort->name, sort->count, sort->passed / sort->count);
    printf("%s-processor %d %.1f\n", sort->name, sort->count, sort->took / sort->count);
  }
}

static void open_stream(int port) {
  int yes = 1;
  struct sockaddr_in address = {.sin_family = AF_INET, .sin_port = htons((unsigned short)port),
                                .sin_addr.s_addr = htonl(INADDR_LOOPBACK)};
  stream = socket(AF_INET, SOCK_STREAM, 0);
  if (stream < 0 || setsockopt(stream, IPPROTO_TCP, TCP_NODELAY, &yes, sizeof yes) != 0 ||
      connect(stream, (struct sockaddr *)&address, sizeof address) != 0)
    stop("no connection");
}

#ifndef WITHOUT_MAIN
int main(int words, char **word) {
  /* These have just a few journeys that have not ended; further ones begin for the steps. Each round of heads has
     as many bytes as the others. */
  static struct sort gets[] = {
    {.name = "get", .make = make_gets, .count = 500},
    {.name = "get-bytewise", .make = make_gets, .count = 40, .is_bytewise = 1},
    {.name = "head-2048", .make = make_heads, .count = 16, .is_bytewise = 1, .head = 2048},
    {.name = "head-4096", .make = make_heads, .count = 8, .is_bytewise = 1, .head = 4096},
    {.name = "head-8192", .make = make_heads, .count = 4, .is_bytewise = 1, .head = 8192},
  };
  static struct sort steps[] = {
    {.name = "step", .make = begin_and_make_steps, .count = JOURNEYS * STEPS},
    {.name = "step-bytewise", .make = begin_and_make_steps, .count = 3 * JOURNEYS, .is_bytewise = 1},
  };
  if (words != 4) {
    fprintf(stderr, "usage: ask PORT PID PAGES\n");
    return 2;
  }
  FILE *pages = fopen(word[3], "w");
  if (!pages) stop("the pages cannot be written");
  process = word[2];
  open_stream(atoi(word[1]));
  begin(FEW);
  time_sorts(gets, sizeof gets / sizeof gets[0], pages);
  time_sorts(steps, sizeof steps / sizeof steps[0], pages);
  close(stream);
  return fclose(pages) == 0 ? 0 : 1;
}
#endif
