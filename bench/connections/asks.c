#define _GNU_SOURCE
/* Asks a server on loopback without a pause, on so many connections at once, and prints how many
   answers came in so many seconds, how many were lost, and how long the median and the slowest of a
   hundred took, in microseconds. Each connection is kept, or makes place for a new one after its
   answer.

   asks PORT COUNT SECONDS keep|close */
#include <arpa/inet.h>
#include <errno.h>
#include <netinet/in.h>
#include <netinet/tcp.h>
#include <stdio.h>
#include <stdlib.h>
#include <string.h>
#include <sys/epoll.h>
#include <sys/socket.h>
#include <time.h>
#include <unistd.h>

#define MOST_TIMES 4000000

struct asker {
  int socket;
  long long began;
  size_t held;
  char bytes[16384];
};

static struct sockaddr_in server = {.sin_family = AF_INET};
static const char *request;
static int events;
static unsigned times[MOST_TIMES];
static size_t answers, lost;

static long long now(void) {
  struct timespec it;
  clock_gettime(CLOCK_MONOTONIC, &it);
  return it.tv_sec * 1000000000LL + it.tv_nsec;
}

static void fail(const char *what) {
  perror(what);
  exit(1);
}

static void ask(struct asker *it) {
  size_t length = strlen(request);
  it->held = 0;
  if (send(it->socket, request, length, MSG_NOSIGNAL) != (ssize_t)length) lost++;
}

static void begin(struct asker *it) {
  it->began = now();
  it->socket = socket(AF_INET, SOCK_STREAM, 0);
  if (it->socket < 0) fail("socket");
  if (connect(it->socket, (struct sockaddr *)&server, sizeof server) != 0) fail("connect");
  int on = 1;
  setsockopt(it->socket, IPPROTO_TCP, TCP_NODELAY, &on, sizeof on);
  struct epoll_event event = {.events = EPOLLIN, .data.ptr = it};
  if (epoll_ctl(events, EPOLL_CTL_ADD, it->socket, &event) != 0) fail("epoll_ctl");
  ask(it);
}

/* whether an answer is whole */
static int is_whole(const struct asker *it) {
  const char *head = memmem(it->bytes, it->held, "\r\n\r\n", 4);
  if (head == NULL) return 0;
  const char *length = memmem(it->bytes, it->held, "Content-Length: ", 16);
  if (length == NULL) fail("an answer without a length");
  return it->held >= (size_t)(head + 4 - it->bytes) + strtoul(length + 16, NULL, 10);
}

static void note(struct asker *it) {
  if (answers < MOST_TIMES) times[answers] = (unsigned)((now() - it->began) / 1000);
  answers++;
}

static void go_on(struct asker *it, int keeps) {
  ssize_t got = recv(it->socket, it->bytes + it->held, sizeof it->bytes - 1 - it->held, 0);
  if (got <= 0) {
    lost++;
    close(it->socket);
    begin(it);
    return;
  }
  it->held += got;
  it->bytes[it->held] = 0;
  if (!is_whole(it)) return;
  note(it);
  if (keeps) {
    it->began = now();
    ask(it);
  } else {
    close(it->socket);
    begin(it);
  }
}

static int by_size(const void *a, const void *b) {
  unsigned x = *(const unsigned *)a, y = *(const unsigned *)b;
  return (x > y) - (x < y);
}

int main(int count, char **words) {
  if (count != 5) {
    fprintf(stderr, "asks PORT COUNT SECONDS keep|close\n");
    return 2;
  }
  int many = atoi(words[2]), keeps = strcmp(words[4], "keep") == 0;
  server.sin_port = htons(atoi(words[1]));
  server.sin_addr.s_addr = htonl(INADDR_LOOPBACK);
  request = keeps ? "GET /loans HTTP/1.1\r\nHost: room\r\nX-Terminal: deskone1\r\n\r\n"
                  : "GET /loans HTTP/1.1\r\nHost: room\r\nX-Terminal: deskone1\r\n"
                    "Connection: close\r\n\r\n";
  events = epoll_create1(0);
  struct asker *askers = calloc(many, sizeof *askers);
  for (int nth = 0; nth < many; nth++) begin(&askers[nth]);
  long long began = now(), ends = began + atoi(words[3]) * 1000000000LL;
  while (now() < ends) {
    struct epoll_event ready[64];
    int found = epoll_wait(events, ready, 64, 1000);
    if (found < 0 && errno != EINTR) fail("epoll_wait");
    for (int nth = 0; nth < found; nth++) go_on(ready[nth].data.ptr, keeps);
  }
  double seconds = (now() - began) / 1e9;
  size_t noted = answers < MOST_TIMES ? answers : MOST_TIMES;
  qsort(times, noted, sizeof *times, by_size);
  printf("%.0f %zu %u %u\n", answers / seconds, lost, noted ? times[noted / 2] : 0,
         noted ? times[noted * 99 / 100] : 0);
  return 0;
}
