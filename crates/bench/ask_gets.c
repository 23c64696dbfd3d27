/* GETs of many clients at once, over HTTP.

   ask_gets PORT CLIENTS GETS TARGET AGENT

   Each client has a connection of its own to a port of 127.0.0.1, over which it sends the same GET so often, each when
   the page of the one before has come in whole. Each page has to be good, and to have the body of the first. It prints
   how many microseconds passed for a page, and that body. */
#include "clients.h"
#include "times.h"

enum { LONGEST = 1 << 16 };

/* a client: how much of its page has come */
struct client {
  size_t came;
  char page[LONGEST];
};

static struct client clients[MOST];
static char request[1024], body[LONGEST];

static void ask(int at) {
  clients[at].came = 0;
  if (write(streams[at], request, strlen(request)) != (ssize_t)strlen(request)) stop("a request could not be sent");
}

/* The body of a client's page, if it is whole. */
static const char *whole_body(const struct client *client) {
  const char *end = strstr(client->page, "\r\n\r\n"), *length = strcasestr(client->page, "\r\nContent-Length:");
  if (!end || !length || length > end) return NULL;
  return strlen(end + 4) < strtoul(length + 17, NULL, 10) ? NULL : end + 4;
}

/* Reads what came of the page. Returns whether it is whole. */
static int take_page(int at) {
  struct client *client = &clients[at];
  ssize_t got = read(streams[at], client->page + client->came, LONGEST - 1 - client->came);
  if (got <= 0) stop("no page came");
  client->came += (size_t)got;
  client->page[client->came] = 0;
  const char *found = whole_body(client);
  if (!found) return 0;
  if (strncmp(client->page, "HTTP/1.1 200 ", 13) != 0) stop("a page is not a good one");
  if (!body[0]) strcpy(body, found);
  if (strcmp(body, found) != 0) stop("a page has another body");
  return 1;
}

int main(int words, char **word) {
  if (words != 6) {
    fprintf(stderr, "usage: ask_gets PORT CLIENTS GETS TARGET AGENT\n");
    return 2;
  }
  int count = atoi(word[2]), gets = atoi(word[3]);
  if (count < 1 || count > MOST || gets < 1) stop("there are no such clients");
  snprintf(request, sizeof request, "GET %s HTTP/1.1\r\nHost: 127.0.0.1\r\nDesk-Agent: %s\r\n\r\n", word[4], word[5]);
  connect_all(atoi(word[1]), count);
  double start = now();
  ask_all(count, gets, ask, take_page);
  printf("%.1f %s\n", (now() - start) / count / gets, body);
  return 0;
}
