/* The row changes of a desk by libsqlite3, asked for over HTTP: what ./bench holds `desk serve` against.

   http FILE PORT [reading]

   It makes FILE, which is not there yet, with 100,000 places of one night, prints `ready PORT`, and answers the
   requests of one connection to 127.0.0.1 until its end:

   POST /journeys              a journey of 24 steps begins, each of them a place of that night
   POST /journeys/{id}/step    its next step takes its place
   GET /unfinished             the agent's journeys that have not ended

   A POST is one transaction, and keeps its reply under agent and key. With the word `reading` it first reads
   what a desk has to read for its decision. Only what ask.c and ask_many.c send is understood, and nothing is
   refused: what is anything else ends the program.

   The program serve_many.c serves many connections: it is compiled with this file in front of it, without its
   `main`. */
#define _GNU_SOURCE /* memmem */
#define WITHOUT_MAIN
#include "rows.c"
#include <arpa/inet.h>
#include <netinet/in.h>
#include <netinet/tcp.h>
#include <strings.h>
#include <sys/socket.h>
#include <unistd.h>

enum { STEPS = 24, MOST_JOURNEYS = 10000, MOST_BYTES = 1 << 16, LONGEST_HEAD = 8192 };

struct request {
  char *method, *target, *agent, *key, *body;
  size_t length;
};

static struct want flight = {0, FIRST, 1, PLACES, "F", "AL", "A1"};
/* how many steps of each journey have taken their place */
static int taken[MOST_JOURNEYS + 1];
/* the page that is sent next */
static char page[MOST_BYTES + 128];
static size_t page_length;

/* a connection, with what was read of it and is not yet answered */
struct connection {
  int stream;
  size_t held;
  char waiting[MOST_BYTES];
};

static void stop(const char *why) {
  fprintf(stderr, "http: %s\n", why);
  exit(1);
}

/* Reads more behind what waits, and says how much it was: 0 at the end of the connection, -1 where there is nothing
   now. */
static ssize_t fill(struct connection *from) {
  if (from->held == sizeof from->waiting) stop("a request is too long");
  ssize_t count = read(from->stream, from->waiting + from->held, sizeof from->waiting - from->held);
  if (count > 0) from->held += (size_t)count;
  return count;
}

/* How long the head that waits is; 0 where it is not whole. The first bytes were searched before, when so many had
   come in. */
static size_t length_of_head(const struct connection *of, size_t looked) {
  size_t from = looked > 3 ? looked - 3 : 0;
  char *end = memmem(of->waiting + from, of->held - from, "\r\n\r\n", 4);
  return end ? (size_t)(end - of->waiting) + 4 : 0;
}

/* The request line and the fields that count of a head, which is cut into texts. */
static struct request parse(char *head, size_t length) {
  char *rest;
  head[length - 2] = 0;
  struct request request = {.method = strtok_r(head, " ", &rest), .target = strtok_r(NULL, " ", &rest)};
  strtok_r(NULL, "\r\n", &rest);
  for (char *line; (line = strtok_r(NULL, "\r\n", &rest));) {
    char *value = strchr(line, ':');
    if (!value) stop("a field has no name");
    *value++ = 0;
    value += strspn(value, " \t");
    if (strcasecmp(line, "Content-Length") == 0) request.length = strtoul(value, NULL, 10);
    if (strcasecmp(line, "Desk-Agent") == 0) request.agent = value;
    if (strcasecmp(line, "Desk-Key") == 0) request.key = value;
  }
  if (!request.method || !request.target || !request.agent) stop("a head is not understood");
  return request;
}

#ifndef WITHOUT_SERVER
static void write_all(int stream, const char *bytes, size_t count) {
  while (count > 0) {
    ssize_t written = write(stream, bytes, count);
    if (written <= 0) stop("a write failed");
    bytes += written;
    count -= (size_t)written;
  }
}
#endif

/* Makes the page with this body, which is sent next. */
static void make_page(const char *body) {
  page_length = (size_t)snprintf(page, sizeof page,
                                 "HTTP/1.1 200 OK\r\nContent-Length: %zu\r\nContent-Type: application/json\r\n\r\n%s",
                                 strlen(body), body);
}

/* what a desk reads of a key before anything else */
static void read_answer(const struct request *request) {
  if (reads) run(READ_ANSWER, "tt", NULL, (const char *const[]){request->agent, request->key});
}

/* Keeps a reply under agent and key, with what was asked, and ends the transaction. */
static void keep(const struct request *request, const char *reply) {
  static char ask[MOST_BYTES + LONGEST_HEAD];
  int front = sprintf(ask, "%s\n", request->target);
  memcpy(ask + front, request->body, request->length);
  int length = front + (int)request->length;
  if (sqlite3_bind_blob(statements[ANSWER], 4, ask, length, SQLITE_STATIC) != SQLITE_OK) fail();
  run(ANSWER, "ttt", NULL, (const char *const[]){request->agent, request->key, reply});
  RUN(COMMIT, "", 0);
}

/* A journey begins. */
static void answer_begin(const struct request *request) {
  char reply[64], body[64];
  if (journeys == MOST_JOURNEYS) stop("too many journeys");
  read_answer(request);
  if (reads) RUN(READ_META, "", 0);
  RUN(BEGIN, "", 0);
  run(JOURNEY, "iiit", (const long[]){++journeys, ++events, STEPS}, (const char *const[]){request->agent});
  for (int place = 1; place <= STEPS; place++)
    run(STEP, "iiittii", (const long[]){journeys, place, flight.kind, flight.first, flight.nights},
        (const char *const[]){flight.supplier, flight.product});
  RUN(META, "ii", events, journeys);
  sprintf(reply, "journey %d begun", journeys);
  keep(request, reply);
  sprintf(body, "{\"journey\":%d}", journeys);
  make_page(body);
}

/* The next step of a journey takes its place. */
static void answer_step(const struct request *request, int id) {
  char reply[64], body[128];
  if (id < 1 || id > journeys || taken[id] == STEPS) stop("a journey has no such step");
  read_answer(request);
  read_step(id, taken[id] + 1);
  if (reads) read_nights(&flight, flight.first, flight.first);
  RUN(BEGIN, "", 0);
  put(&flight, flight.first, --flight.free);
  int pos = ++taken[id], ends = pos == STEPS;
  RUN(TAKEN, "iii", id, pos, 1);
  put_item(id, 0, pos, 1, pos, ends ? 2 : 0, 0);
  sprintf(reply, "journey %d T%d.1 %s %d", id, pos, ends ? "ended" : "run", pos);
  keep(request, reply);
  sprintf(body, "{\"item\":\"T%d.1\",\"journey\":%d,\"pos\":%d,\"state\":\"%s\"}", pos, id, pos,
          ends ? "ended" : "run");
  make_page(body);
}

/* The agent's journeys that have not ended; there are few. */
static void answer_unfinished(const struct request *request) {
  static char body[MOST_BYTES];
  sqlite3_stmt *rows = statements[UNFINISHED];
  int status, length = sprintf(body, "{\"unfinished\":["), first = length;
  if (sqlite3_bind_int64(rows, 1, 0) != SQLITE_OK) fail();
  while ((status = sqlite3_step(rows)) == SQLITE_ROW) {
    if (strcmp((const char *)sqlite3_column_text(rows, 2), request->agent) != 0) continue;
    if (length > MOST_BYTES - 128) stop("too many journeys have not ended");
    length += sprintf(body + length, "%s{\"journey\":%lld,\"pos\":%d,\"state\":\"run\"}", length > first ? "," : "",
                      (long long)sqlite3_column_int64(rows, 0), sqlite3_column_int(rows, 5));
  }
  if (status != SQLITE_DONE || sqlite3_reset(rows) != SQLITE_OK) fail();
  strcpy(body + length, "]}");
  make_page(body);
}

static void answer(const struct request *request) {
  int id, end = 0;
  if (strcmp(request->method, "GET") == 0 && strcmp(request->target, "/unfinished") == 0) {
    answer_unfinished(request);
    return;
  }
  if (strcmp(request->method, "POST") != 0 || !request->key) stop("a request is not understood");
  if (strcmp(request->target, "/journeys") == 0)
    answer_begin(request);
  else if (sscanf(request->target, "/journeys/%d/step%n", &id, &end) == 1 && end && !request->target[end])
    answer_step(request, id);
  else
    stop("a path is not understood");
}

/* The request that waits behind a head of this length. The head is cut into texts, in a place of its own: it may
   have to be read again, where the body has not come in. */
static struct request request_of(struct connection *from, size_t end) {
  static char head[LONGEST_HEAD + 1];
  if (end > LONGEST_HEAD) stop("a head is too long");
  memcpy(head, from->waiting, end);
  struct request request = parse(head, end);
  request.body = from->waiting + end;
  return request;
}

/* What waits behind a request of this length is next. */
static void consume(struct connection *from, size_t length) {
  from->held -= length;
  memmove(from->waiting, from->waiting + length, from->held);
}

#ifndef WITHOUT_SERVER
/* Answers the requests of a connection, one behind the other, until its end. */
static void serve(struct connection *from) {
  for (;;) {
    size_t looked = 0, end;
    while ((end = length_of_head(from, looked)) == 0) {
      looked = from->held;
      ssize_t count = fill(from);
      if (count < 0) stop("a read failed");
      if (count == 0) return;
    }
    struct request request = request_of(from, end);
    while (from->held - end < request.length)
      if (fill(from) <= 0) stop("a request is cut off");
    answer(&request);
    write_all(from->stream, page, page_length);
    consume(from, end + request.length);
  }
}
#endif

/* Listens on a port of this host, and says so. */
static int listen_on(int port) {
  int yes = 1, listener = socket(AF_INET, SOCK_STREAM, 0);
  struct sockaddr_in address = {.sin_family = AF_INET, .sin_port = htons((unsigned short)port),
                                .sin_addr.s_addr = htonl(INADDR_LOOPBACK)};
  if (listener < 0 || setsockopt(listener, SOL_SOCKET, SO_REUSEADDR, &yes, sizeof yes) != 0 ||
      bind(listener, (struct sockaddr *)&address, sizeof address) != 0 || listen(listener, 128) != 0)
    stop("the port could not be listened on");
  printf("ready %d\n", port);
  fflush(stdout);
  return listener;
}

#ifndef WITHOUT_SERVER
int main(int words, char **word) {
  static struct connection only;
  int yes = 1;
  if (words < 3 || words > 4) {
    fprintf(stderr, "usage: http FILE PORT [reading]\n");
    return 2;
  }
  open_rows(word[1]);
  set(&flight);
  reads = words == 4;
  only.stream = accept(listen_on(atoi(word[2])), NULL, NULL);
  if (only.stream < 0 || setsockopt(only.stream, IPPROTO_TCP, TCP_NODELAY, &yes, sizeof yes) != 0)
    stop("no connection could be taken");
  serve(&only);
  close(only.stream);
  return close_rows();
}
#endif
