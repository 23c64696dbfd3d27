/* The server of http.c for many connections at once: what ./bench holds `desk serve` against for many clients.

   serve_many FILE PORT CONNECTIONS [reading]

   It serves so many connections in all, up to 256 of them at once, on one thread by epoll, and ends when all have
   ended. Of each connection that may go on one request is answered, then of the next. A page that is not taken waits,
   and its connection is not read meanwhile. A connection is ended where a request is not whole, or a page is not
   taken, for 30 seconds. All else is as http.c has it. */
#define WITHOUT_SERVER
#include "http.c"
#include <errno.h>
#include <sys/epoll.h>

enum { SEATS = 256, PATIENCE = 30, LISTENER = SEATS };

/* a connection with its page, as far as it waits, and since when its peer owes something; how much of what waits was
   searched for the end of a head in vain */
struct guest {
  struct connection of;
  size_t looked;
  int is_here, is_queued;
  time_t owes_since;
  char *unsent;
  size_t sent, length;
};

static struct guest guests[SEATS];
static int watched, here, to_come;
static time_t clock_now;
/* the guests of whom one more request may wait, though nothing more comes in */
static int queue[SEATS], queued;

static void watch(int operation, int stream, unsigned seat, unsigned what) {
  struct epoll_event event = {.events = what, .data.u32 = seat};
  if (epoll_ctl(watched, operation, stream, &event) != 0) stop("a connection cannot be watched");
}

static void leave(struct guest *guest) {
  close(guest->of.stream);
  free(guest->unsent);
  guest->unsent = NULL;
  guest->is_here = 0;
  here--;
}

/* Sends what is left of a page. Returns whether all of it is sent. */
static int send_rest(struct guest *guest) {
  ssize_t count = write(guest->of.stream, guest->unsent + guest->sent, guest->length - guest->sent);
  if (count < 0 && errno != EAGAIN) {
    leave(guest);
    return 0;
  }
  if (count > 0) {
    guest->sent += (size_t)count;
    guest->owes_since = clock_now;
  }
  if (guest->sent < guest->length) return 0;
  free(guest->unsent);
  guest->unsent = NULL;
  guest->owes_since = 0;
  watch(EPOLL_CTL_MOD, guest->of.stream, (unsigned)(guest - guests), EPOLLIN);
  return 1;
}

/* Sends the page. What does not go out waits, and the connection is not read until it is out. */
static void send_page(struct guest *guest) {
  ssize_t count = write(guest->of.stream, page, page_length);
  guest->owes_since = 0;
  if (count == (ssize_t)page_length) return;
  if (count < 0 && errno != EAGAIN) {
    leave(guest);
    return;
  }
  guest->sent = 0;
  guest->length = page_length - (count > 0 ? (size_t)count : 0);
  guest->unsent = malloc(guest->length);
  if (!guest->unsent) stop("out of memory");
  memcpy(guest->unsent, page + (page_length - guest->length), guest->length);
  guest->owes_since = clock_now;
  watch(EPOLL_CTL_MOD, guest->of.stream, (unsigned)(guest - guests), EPOLLOUT);
}

/* Answers the request that waits, if one is whole. Returns whether there was one. */
static int answer_next(struct guest *guest) {
  size_t end = length_of_head(&guest->of, guest->looked);
  guest->looked = end == 0 ? guest->of.held : 0;
  if (end == 0) return 0;
  struct request request = request_of(&guest->of, end);
  if (guest->of.held - end < request.length) return 0;
  answer(&request);
  consume(&guest->of, end + request.length);
  send_page(guest);
  return 1;
}

/* A guest has its turn: a request that waits is answered, or else more is read first. */
static void go_on(struct guest *guest) {
  int may_wait = guest->is_queued;
  guest->is_queued = 0;
  if (!guest->is_here) return;
  if (guest->unsent) {
    if (!send_rest(guest)) return;
    may_wait = 1;
  }
  if (!may_wait || !answer_next(guest)) {
    ssize_t count = fill(&guest->of);
    if (count < 0 && errno == EAGAIN) return;
    if (count <= 0) {
      leave(guest);
      return;
    }
    if (!answer_next(guest)) {
      if (guest->owes_since == 0) guest->owes_since = clock_now;
      return;
    }
  }
  /* what came in behind the request is looked at in the next round */
  if (guest->is_here && !guest->unsent && guest->of.held > 0) {
    guest->owes_since = clock_now;
    guest->is_queued = 1;
    queue[queued++] = (int)(guest - guests);
  }
}

/* Takes a connection that waits. */
static void welcome(int listener) {
  int yes = 1, stream = accept4(listener, NULL, NULL, SOCK_NONBLOCK);
  if (stream < 0) return;
  struct guest *guest = guests;
  while (guest < guests + SEATS && guest->is_here) guest++;
  if (guest == guests + SEATS) stop("too many connections");
  if (setsockopt(stream, IPPROTO_TCP, TCP_NODELAY, &yes, sizeof yes) != 0) stop("no connection could be taken");
  guest->of.stream = stream;
  guest->of.held = 0;
  guest->looked = 0;
  guest->is_here = 1;
  guest->is_queued = 0;
  guest->owes_since = 0;
  here++;
  to_come--;
  watch(EPOLL_CTL_ADD, stream, (unsigned)(guest - guests), EPOLLIN);
}

/* Once a second those who have owed something for too long are ended. */
static void count_seconds(void) {
  struct timespec time;
  clock_gettime(CLOCK_MONOTONIC, &time);
  if (time.tv_sec == clock_now) return;
  clock_now = time.tv_sec;
  for (struct guest *guest = guests; guest < guests + SEATS; guest++)
    if (guest->is_here && guest->owes_since && clock_now - guest->owes_since > PATIENCE) leave(guest);
}

/* One round: each guest that may go on has a turn. */
static void serve_round(int listener) {
  struct epoll_event events[SEATS];
  int turns[SEATS], waiting = queued;
  memcpy(turns, queue, sizeof turns);
  queued = 0;
  int count = epoll_wait(watched, events, SEATS, waiting ? 0 : 1000);
  if (count < 0 && errno != EINTR) stop("epoll failed");
  count_seconds();
  for (int at = 0; at < count; at++)
    if (events[at].data.u32 == LISTENER)
      welcome(listener);
    else
      go_on(&guests[events[at].data.u32]);
  for (int at = 0; at < waiting; at++)
    if (guests[turns[at]].is_queued) go_on(&guests[turns[at]]);
}

int main(int words, char **word) {
  if (words < 4 || words > 5) {
    fprintf(stderr, "usage: serve_many FILE PORT CONNECTIONS [reading]\n");
    return 2;
  }
  open_rows(word[1]);
  set(&flight);
  reads = words == 5;
  to_come = atoi(word[3]);
  watched = epoll_create1(0);
  if (watched < 0) stop("there is no epoll");
  int listener = listen_on(atoi(word[2]));
  watch(EPOLL_CTL_ADD, listener, LISTENER, EPOLLIN);
  while (to_come > 0 || here > 0) serve_round(listener);
  return close_rows();
}
