// What `farm serve` does for the gauge readings that it commits, without HTTP's rules, JSON and the desk: `commit_server PORT FILE POSTS`
// listens in as many threads, on this port and those after it. Each takes a head and its body from one connection after another, makes the
// two writes of a journal's record at the end of the one journal, each followed by fdatasync (`put` of journal.c), and answers the number of
// the record. One mutex is held for a record with its number. It ends by a signal.
#define _GNU_SOURCE
#include <arpa/inet.h>
#include <fcntl.h>
#include <netinet/in.h>
#include <netinet/tcp.h>
#include <pthread.h>
#include <stdio.h>
#include <stdlib.h>
#include <string.h>
#include <sys/socket.h>
#include <unistd.h>

enum { BODY = 59, RECORD = 5 + BODY, ROOM = 81920, MOST = 64 };

struct post {
  int listener;
  size_t in_hand;
  char taken[ROOM + 1];
};

static struct post posts[MOST];
static pthread_mutex_t turn = PTHREAD_MUTEX_INITIALIZER;
static int file;
static off_t gate;
static long last_place;

// The length of the request in hand, or 0 where it isn't whole.
static size_t whole(struct post *post) {
  post->taken[post->in_hand] = 0;
  char *end = strstr(post->taken, "\r\n\r\n"), *field = strcasestr(post->taken, "\r\ncontent-length:");
  if (!end || !field) return 0;
  size_t length = (size_t)(end + 4 - post->taken) + (size_t)atol(field + 17);
  return length <= post->in_hand ? length : 0;
}

// The number of a record that is put, or 0.
static long put(void) {
  unsigned char record[RECORD] = {0, 0, 0, BODY}, open_gate = 1;
  pthread_mutex_lock(&turn);
  int good = pwrite(file, record, RECORD, gate + 1) == RECORD && !fdatasync(file) && pwrite(file, &open_gate, 1, gate) == 1 && !fdatasync(file);
  long place = good ? ++last_place : 0;
  gate += RECORD;
  pthread_mutex_unlock(&turn);
  return place;
}

static int answered(int peer, long place) {
  char body[32], page[256];
  int length = snprintf(body, sizeof body, "{\"place\":%ld}", place);
  int bytes = snprintf(page, sizeof page, "HTTP/1.1 200 OK\r\ncontent-type: application/json\r\ncontent-length: %d\r\n\r\n%s", length, body);
  return send(peer, page, (size_t)bytes, MSG_NOSIGNAL) == bytes;
}

static void *serve(void *it) {
  struct post *post = it;
  for (int on = 1;;) {
    int peer = accept(post->listener, NULL, NULL);
    if (peer < 0) exit(1);
    setsockopt(peer, IPPROTO_TCP, TCP_NODELAY, &on, sizeof on);
    post->in_hand = 0;
    for (ssize_t more; (more = recv(peer, post->taken + post->in_hand, ROOM - post->in_hand, 0)) > 0;) {
      post->in_hand += (size_t)more;
      for (size_t length; (length = whole(post)) > 0;) {
        long place = put();
        if (!place || !answered(peer, place)) exit(1);
        memmove(post->taken, post->taken + length, post->in_hand - length);
        post->in_hand -= length;
      }
    }
    close(peer);
  }
}

static int listens(struct post *post, int port) {
  struct sockaddr_in at = {.sin_family = AF_INET, .sin_port = htons((unsigned short)port), .sin_addr.s_addr = htonl(INADDR_LOOPBACK)};
  int on = 1;
  post->listener = socket(AF_INET, SOCK_STREAM, 0);
  setsockopt(post->listener, SOL_SOCKET, SO_REUSEADDR, &on, sizeof on);
  return post->listener >= 0 && !bind(post->listener, (struct sockaddr *)&at, sizeof at) && !listen(post->listener, 128);
}

int main(int count, char **words) {
  int all = count == 4 ? atoi(words[3]) : 0;
  if (all < 1 || all > MOST) return 1;
  file = open(words[2], O_RDWR);
  gate = lseek(file, 0, SEEK_END) - 1;
  if (file < 0 || gate < 0) return 1;
  pthread_t threads[MOST];
  for (int number = 0; number < all; number++)
    if (!listens(&posts[number], atoi(words[1]) + number) || pthread_create(&threads[number], NULL, serve, &posts[number])) return 1;
  for (int number = 0; number < all; number++) pthread_join(threads[number], NULL);
  return 0;
}
