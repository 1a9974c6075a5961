// Clients that ask a server on 127.0.0.1 by HTTP/1.1, side by side: each sends one request after another over one connection, which is made
// anew after every 10,000 requests, since the servers end it then.
//
// `http_client PORT looks COUNT CLIENTS` gets /total COUNT times by each client, the first over this port and each over the next one.
// `http_client PORT gauges COUNT CLIENTS` posts COUNT gauge readings by each, for accounts and under keys from 1. It prints how many requests
// a second were answered and how many bytes the bodies of the answers had, or ends with 1 at an answer that isn't 200.
#define _GNU_SOURCE
#include <arpa/inet.h>
#include <netinet/in.h>
#include <netinet/tcp.h>
#include <pthread.h>
#include <stdio.h>
#include <stdlib.h>
#include <string.h>
#include <sys/socket.h>
#include <time.h>
#include <unistd.h>

enum { EACH = 10000, REQUEST = 512, ROOM = 65536, MOST = 64 };

struct client {
  int number, peer;
  long bytes;
  size_t length;
  char request[REQUEST], answer[ROOM + 1];
};

static int port, posts_gauges;
static long requests;
static struct client clients[MOST];

static int peer_at(int number) {
  struct sockaddr_in at = {.sin_family = AF_INET, .sin_port = htons((unsigned short)(port + number)), .sin_addr.s_addr = htonl(INADDR_LOOPBACK)};
  int peer = socket(AF_INET, SOCK_STREAM, 0), on = 1;
  if (peer < 0 || connect(peer, (struct sockaddr *)&at, sizeof at)) return -1;
  setsockopt(peer, IPPROTO_TCP, TCP_NODELAY, &on, sizeof on);
  return peer;
}

static void look(struct client *client) {
  client->length = (size_t)snprintf(client->request, REQUEST, "GET /total HTTP/1.1\r\nhost: 127.0.0.1\r\n\r\n");
}

static void gauge(struct client *client, long key) {
  char body[128];
  int length = snprintf(body, sizeof body, "{\"account\":%d,\"key\":%ld,\"tank\":101,\"level\":1234,\"water\":10,\"temperature\":1850,\"ambient\":1200}",
                        client->number + 1, key);
  client->length = (size_t)snprintf(client->request, REQUEST, "POST /gauge HTTP/1.1\r\nhost: 127.0.0.1\r\ncontent-length: %d\r\n\r\n%s", length, body);
}

// The length of the answer's body once all of it is here, or -1.
static long whole(char *answer, size_t count) {
  answer[count] = 0;
  char *end = strstr(answer, "\r\n\r\n"), *field = strcasestr(answer, "\r\ncontent-length:");
  if (!end || !field) return -1;
  long length = atol(field + 17);
  return (size_t)(end + 4 - answer) + (size_t)length <= count ? length : -1;
}

// The length of the answer's body, or -1 where there is no good one.
static long asked(struct client *client) {
  if (send(client->peer, client->request, client->length, MSG_NOSIGNAL) != (ssize_t)client->length) return -1;
  for (size_t count = 0; count < ROOM;) {
    ssize_t more = recv(client->peer, client->answer + count, ROOM - count, 0);
    if (more <= 0) return -1;
    count += (size_t)more;
    long body = whole(client->answer, count);
    if (body >= 0) return strncmp(client->answer, "HTTP/1.1 200 ", 13) ? -1 : body;
  }
  return -1;
}

static void *ask_all(void *it) {
  struct client *client = it;
  client->peer = -1;
  for (long key = 1; key <= requests; key++) {
    if (key % EACH == 1) {
      if (client->peer >= 0) close(client->peer);
      if ((client->peer = peer_at(client->number)) < 0) exit(1);
    }
    if (posts_gauges) gauge(client, key); else look(client);
    long body = asked(client);
    if (body < 0) exit(1);
    client->bytes += body;
  }
  return NULL;
}

int main(int count, char **words) {
  int all = count == 5 ? atoi(words[4]) : 0;
  if (all < 1 || all > MOST) return 1;
  port = atoi(words[1]);
  posts_gauges = !strcmp(words[2], "gauges");
  requests = atol(words[3]);
  pthread_t threads[MOST];
  struct timespec from, to;
  clock_gettime(CLOCK_MONOTONIC, &from);
  for (int number = 0; number < all; number++) {
    clients[number].number = number;
    if (pthread_create(&threads[number], NULL, ask_all, &clients[number])) return 1;
  }
  long bytes = 0;
  for (int number = 0; number < all; number++) {
    pthread_join(threads[number], NULL);
    bytes += clients[number].bytes;
  }
  clock_gettime(CLOCK_MONOTONIC, &to);
  printf("%.1f %ld\n", (double)(all * requests) / ((double)(to.tv_sec - from.tv_sec) + (double)(to.tv_nsec - from.tv_nsec) / 1e9), bytes);
  return 0;
}
