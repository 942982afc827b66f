/* The least that a server of logons does: a loop that reads a request of 392 bytes and writes a reply of 512, on one
 * link at a time, which it waits for in the read itself. bench/links.py measures it beside nt_controller.
 *
 * usage: bare PORT      listens at 127.0.0.1, until it is stopped */
#include <arpa/inet.h>
#include <netinet/in.h>
#include <netinet/tcp.h>
#include <stdlib.h>
#include <sys/socket.h>
#include <unistd.h>

enum { REQUEST = 392, REPLY = 512 };

/* Whether a whole request came. */
static int request(int link, char *bytes) {
  for (size_t held = 0; held < REQUEST;) {
    ssize_t came = read(link, bytes + held, REQUEST - held);
    if (came <= 0)
      return 0;
    held += (size_t)came;
  }
  return 1;
}

/* Whether the whole reply was taken. */
static int reply(int link, const char *bytes) {
  for (size_t done = 0; done < REPLY;) {
    ssize_t went = write(link, bytes + done, REPLY - done);
    if (went <= 0)
      return 0;
    done += (size_t)went;
  }
  return 1;
}

int main(int count, char **words) {
  static char in[REQUEST], out[REPLY];
  struct sockaddr_in place = {.sin_family = AF_INET, .sin_addr.s_addr = htonl(INADDR_LOOPBACK)};
  int listener = socket(AF_INET, SOCK_STREAM, 0), on = 1;
  if (count != 2)
    return 2;
  place.sin_port = htons((unsigned short)atoi(words[1]));
  setsockopt(listener, SOL_SOCKET, SO_REUSEADDR, &on, sizeof on);
  if (bind(listener, (struct sockaddr *)&place, sizeof place) || listen(listener, 16))
    return 1;
  for (;;) {
    int link = accept(listener, NULL, NULL);
    if (link < 0)
      return 1;
    setsockopt(link, IPPROTO_TCP, TCP_NODELAY, &on, sizeof on);
    while (request(link, in) && reply(link, out)) {
    }
    close(link);
  }
}
