/* Plays requests to a room over one connection that stays open, each when the one before is
   answered, and prints of each how long its answer took and what it was.
   Usage: play PORT <REQUESTS >ANSWERS
   Before each request in REQUESTS stands its length, and before each answer in ANSWERS the
   nanoseconds that it took and its length: in decimal, with a space between the two and a line
   feed behind. */
#define _GNU_SOURCE
#include <arpa/inet.h>
#include <netinet/tcp.h>
#include <stdbool.h>
#include <stdio.h>
#include <stdlib.h>
#include <string.h>
#include <time.h>
#include <unistd.h>

static struct {
    char *at;
    size_t length, room;
} answer;

static void fail(const char *why)
{
    fprintf(stderr, "play: %s\n", why);
    exit(1);
}

static int connected(int port)
{
    int yes = 1, peer = socket(AF_INET, SOCK_STREAM, 0);
    struct sockaddr_in address = {.sin_family = AF_INET, .sin_port = htons((uint16_t)port),
                                  .sin_addr.s_addr = htonl(INADDR_LOOPBACK)};
    if (connect(peer, (struct sockaddr *)&address, sizeof address))
        fail("no connection");
    setsockopt(peer, IPPROTO_TCP, TCP_NODELAY, &yes, sizeof yes);
    return peer;
}

static void receive(int peer)
{
    if (answer.room - answer.length < 65536) {
        answer.room = answer.room * 2 + 131072;
        answer.at = realloc(answer.at, answer.room);
        if (!answer.at)
            fail("no memory");
    }
    ssize_t got = read(peer, answer.at + answer.length, answer.room - answer.length);
    if (got <= 0)
        fail("the connection ended");
    answer.length += (size_t)got;
}

/* How long an answer is whose head is there, or 0. */
static size_t whole_length(void)
{
    static const char field[] = "\r\nContent-Length: ";
    char *end = memmem(answer.at, answer.length, "\r\n\r\n", 4);
    if (!end)
        return 0;
    char *found = memmem(answer.at, (size_t)(end - answer.at), field, sizeof field - 1);
    if (!found)
        fail("an answer without a length");
    return (size_t)(end - answer.at) + 4 + strtoul(found + sizeof field - 1, NULL, 10);
}

static void read_answer(int peer)
{
    size_t whole;
    answer.length = 0;
    do
        receive(peer);
    while (!(whole = whole_length()) || answer.length < whole);
    if (answer.length > whole)
        fail("more than an answer");
}

static long long nanoseconds(void)
{
    struct timespec now;
    clock_gettime(CLOCK_MONOTONIC, &now);
    return now.tv_sec * 1000000000LL + now.tv_nsec;
}

static bool read_request(char *request, size_t room, size_t *length)
{
    if (scanf("%zu", length) != 1)
        return false;
    if (getchar() != '\n' || *length > room || fread(request, 1, *length, stdin) != *length)
        fail("requests that can't be read");
    return true;
}

int main(int count, char **words)
{
    static char request[16384];
    size_t length;
    if (count != 2)
        fail("usage: play PORT");
    int peer = connected(atoi(words[1]));
    while (read_request(request, sizeof request, &length)) {
        long long began = nanoseconds();
        if (write(peer, request, length) != (ssize_t)length)
            fail("a request was not taken");
        read_answer(peer);
        printf("%lld %zu\n", nanoseconds() - began, answer.length);
        fwrite(answer.at, 1, answer.length, stdout);
    }
    return 0;
}
