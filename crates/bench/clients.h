/* Clients of a port of 127.0.0.1, each with a connection of its own, that ask at once. */
#define _GNU_SOURCE /* program_invocation_short_name, strcasestr */
#include <arpa/inet.h>
#include <errno.h>
#include <netinet/in.h>
#include <netinet/tcp.h>
#include <stdio.h>
#include <stdlib.h>
#include <string.h>
#include <sys/epoll.h>
#include <sys/socket.h>
#include <unistd.h>

enum { MOST = 1000 };

static void stop(const char *why) {
  fprintf(stderr, "%s: %s\n", program_invocation_short_name, why);
  exit(1);
}

static int connect_to(int port) {
  int yes = 1, stream = socket(AF_INET, SOCK_STREAM, 0);
  struct sockaddr_in address = {.sin_family = AF_INET, .sin_port = htons((unsigned short)port),
                                .sin_addr.s_addr = htonl(INADDR_LOOPBACK)};
  if (stream < 0 || setsockopt(stream, IPPROTO_TCP, TCP_NODELAY, &yes, sizeof yes) != 0 ||
      connect(stream, (struct sockaddr *)&address, sizeof address) != 0)
    stop("no connection");
  return stream;
}

/* The connections of so many clients, and the epoll that watches them. */
static int streams[MOST], watched;

static void connect_all(int port, int count) {
  watched = epoll_create1(0);
  for (int at = 0; at < count; at++) {
    struct epoll_event event = {.events = EPOLLIN, .data.u32 = (unsigned)at};
    streams[at] = connect_to(port);
    if (epoll_ctl(watched, EPOLL_CTL_ADD, streams[at], &event) != 0) stop("epoll failed");
  }
}

/* So many clients ask so often, each once more when `take_page` has the page of the request before as a whole. */
static void ask_all(int count, int times, void (*ask)(int at), int (*take_page)(int at)) {
  static int asked[MOST];
  struct epoll_event events[MOST];
  int left = times > 0 ? count : 0;
  for (int at = 0; at < left; at++) {
    asked[at] = 1;
    ask(at);
  }
  while (left > 0) {
    int ready = epoll_wait(watched, events, MOST, -1);
    if (ready < 0) stop("epoll failed");
    for (int which = 0; which < ready; which++) {
      int at = (int)events[which].data.u32;
      if (!take_page(at)) continue;
      if (asked[at]++ < times)
        ask(at);
      else
        left--;
    }
  }
}
