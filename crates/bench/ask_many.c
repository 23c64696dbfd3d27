/* Many clients at once of a server of the desk's requests over HTTP.

   ask_many PORT PID CLIENTS SILENT ROUNDS JOURNEYS STEPS

   SILENT connections are opened to a port of 127.0.0.1, over which nothing is sent, and then one for each client; each
   client has an agent of its own. In each round each client begins so many journeys of 24 steps, one client after the
   other. Then all clients make so many steps at once: each sends its next step, with a key of its own, when the page of
   the one before has come in whole. Each page has to be the expected one, byte by byte.

   It prints how many steps there were in a round, and of the shortest round how many microseconds passed for a step,
   and how many of the processor the server took, which is the process PID. The server's file is to be new. */
#include "clients.h"
#include "times.h"

enum { PLAN_STEPS = 24, LONGEST = 1 << 14 };

/* a client: how many steps it has asked for, the page that it waits for, and how much of it came */
struct client {
  int asked;
  char expected[512];
  size_t length, came;
};

static struct client clients[MOST];
static int count, journeys, steps, round_number;
static const char *process;

/* the agent of a client */
static int agent_of(const struct client *client) { return (int)(client - clients); }

/* the number of a journey that a client began in this round */
static int journey_of(const struct client *client, int which) {
  return (round_number * count + agent_of(client)) * journeys + which + 1;
}

static void expect(struct client *client, const char *body) {
  client->came = 0;
  client->length = (size_t)snprintf(client->expected, sizeof client->expected,
                                    "HTTP/1.1 200 OK\r\nContent-Length: %zu\r\nContent-Type: application/json\r\n\r\n%s",
                                    strlen(body), body);
}

static void send_request(const struct client *client, const char *request, int length) {
  if (write(streams[agent_of(client)], request, (size_t)length) != length) stop("a request could not be sent");
}

/* Reads what came of the page. Returns whether it is whole. */
static int take_page(int at) {
  struct client *client = &clients[at];
  char page[sizeof client->expected];
  ssize_t got = read(streams[at], page, sizeof page);
  if (got <= 0) stop("no page came");
  if (client->came + (size_t)got > client->length || memcmp(page, client->expected + client->came, (size_t)got) != 0) {
    fprintf(stderr, "ask_many: expected\n%s\nand got\n%.*s\n", client->expected, (int)got, page);
    exit(1);
  }
  client->came += (size_t)got;
  return client->came == client->length;
}

/* A journey begins, whose steps take one night each. */
static void begin(struct client *client, int which) {
  static const char option[] = "{\"options\":[{\"count\":1,\"first\":\"2030-06-01\",\"kind\":\"flight\",\"nights\":1,"
                               "\"product\":\"A1\",\"supplier\":\"AL\"}],\"save\":false}";
  static char plan[LONGEST], request[LONGEST + 256];
  char body[64];
  int length = sprintf(plan, "{\"steps\":[%s", option);
  for (int at = 1; at < PLAN_STEPS; at++) length += sprintf(plan + length, ",%s", option);
  length += sprintf(plan + length, "],\"tries\":0}");
  sprintf(body, "{\"journey\":%d}", journey_of(client, which));
  expect(client, body);
  length = sprintf(request,
                   "POST /journeys HTTP/1.1\r\nHost: 127.0.0.1\r\nDesk-Agent: a%d\r\nDesk-Key: b%d\r\n"
                   "Content-Length: %d\r\n\r\n%s",
                   agent_of(client), journey_of(client, which), length, plan);
  send_request(client, request, length);
  while (!take_page(agent_of(client))) continue;
}

/* A client asks for its next step. */
static void ask_step(int at) {
  struct client *client = &clients[at];
  char request[256], body[128];
  int id = journey_of(client, client->asked / PLAN_STEPS), pos = client->asked % PLAN_STEPS + 1;
  sprintf(body, "{\"item\":\"T%d.1\",\"journey\":%d,\"pos\":%d,\"state\":\"%s\"}", pos, id, pos,
          pos == PLAN_STEPS ? "ended" : "run");
  expect(client, body);
  client->asked++;
  send_request(client, request,
               sprintf(request,
                       "POST /journeys/%d/step HTTP/1.1\r\nHost: 127.0.0.1\r\nDesk-Agent: a%d\r\nDesk-Key: s%d-%d\r\n"
                       "Content-Length: 0\r\n\r\n",
                       id, agent_of(client), id, pos));
}

int main(int words, char **word) {
  if (words != 8) {
    fprintf(stderr, "usage: ask_many PORT PID CLIENTS SILENT ROUNDS JOURNEYS STEPS\n");
    return 2;
  }
  int port = atoi(word[1]), rounds = atoi(word[5]);
  double passed = 0, took = 0;
  process = word[2];
  count = atoi(word[3]);
  journeys = atoi(word[6]);
  steps = atoi(word[7]);
  if (count < 1 || count > MOST || steps > journeys * PLAN_STEPS) stop("there are no such clients");
  for (int silent = atoi(word[4]); silent > 0; silent--) connect_to(port);
  connect_all(port, count);
  for (; round_number < rounds; round_number++) {
    for (int at = 0; at < count; at++) {
      clients[at].asked = 0;
      for (int which = 0; which < journeys; which++) begin(&clients[at], which);
    }
    double spent_before = spent(process), start = now();
    ask_all(count, steps, ask_step, take_page);
    double passed_now = now() - start, took_now = spent(process) - spent_before;
    if (round_number == 0 || passed_now < passed) passed = passed_now;
    if (round_number == 0 || took_now < took) took = took_now;
  }
  int made = count * steps;
  printf("%d %.1f %.1f\n", made, made ? passed / made : 0, made ? took / made : 0);
  return 0;
}
