/* Sends requests over HTTP.

   send PORT

   Each request of standard input, which the byte 30 ends, is sent over one connection to a port of 127.0.0.1 when the
   page of the one before has come in whole. Any page but a good one ends the program. */
#define WITHOUT_MAIN
#include "ask.c"

int main(int words, char **word) {
  char *request = NULL;
  size_t size = 0;
  ssize_t length;
  if (words != 2) {
    fprintf(stderr, "usage: send PORT <REQUESTS\n");
    return 2;
  }
  open_stream(atoi(word[1]));
  while ((length = getdelim(&request, &size, 30, stdin)) > 1) {
    send_bytes(request, (size_t)length - 1);
    take_page();
  }
  free(request);
  return close(stream);
}
