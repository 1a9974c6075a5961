// Devices of gauge lines, by libmodbus: `lines_server PORT LINES GAUGES ROUNDS`. It binds to 127.0.0.1 alone, listens on this port and those
// after it, one for each line, says `ready`, and serves one connection after another on each. In the second round the first response of each
// line is held back until all lines have asked for theirs, so that lines begin the rounds after it together. Once each line had so many rounds
// of so many polls, it prints for each round for how many microseconds at least one line was polled, and for how many the line that was polled
// longest, each from its first request to its last response, and ends. It ends by itself after two minutes.
#include <modbus/modbus.h>
#include <pthread.h>
#include <stdint.h>
#include <stdio.h>
#include <stdlib.h>
#include <time.h>
#include <unistd.h>

enum { QUANTITY = 5, MOST_LINES = 16, MOST_GAUGES = 16, MOST_ROUNDS = 100 };

struct span {
  double from, to;
};

struct line {
  modbus_t *device;
  modbus_mapping_t *registers;
  int listening;
  struct span rounds[MOST_ROUNDS];
};

static int lines, gauges, rounds;
static struct line all[MOST_LINES];
static pthread_barrier_t together;

static double now(void) {
  struct timespec at;
  clock_gettime(CLOCK_MONOTONIC, &at);
  return (double)at.tv_sec * 1e6 + (double)at.tv_nsec / 1e3;
}

static int listens(struct line *line, int port) {
  line->device = modbus_new_tcp("127.0.0.1", port);
  line->registers = modbus_mapping_new(0, 0, 0, MOST_GAUGES * QUANTITY);
  if (!line->device || !line->registers) return 0;
  for (int i = 0; i < MOST_GAUGES * QUANTITY; i++) line->registers->tab_input_registers[i] = (uint16_t)(1000 + i);
  line->listening = modbus_tcp_listen(line->device, 1);
  return line->listening >= 0;
}

static void *serve(void *it) {
  struct line *line = it;
  for (int polls = 0; polls < rounds * gauges && modbus_tcp_accept(line->device, &line->listening) >= 0;) {
    uint8_t query[MODBUS_TCP_MAX_ADU_LENGTH];
    int size;
    while (polls < rounds * gauges && (size = modbus_receive(line->device, query)) >= 0) {
      if (size == 0) continue;
      struct span *round = &line->rounds[polls / gauges];
      if (polls % gauges == 0) round->from = now();
      if (polls == gauges) pthread_barrier_wait(&together);
      if (modbus_reply(line->device, query, size, line->registers) < 0) break;
      round->to = now();
      polls++;
    }
    modbus_close(line->device);
  }
  return NULL;
}

static int is_later(const void *one, const void *other) {
  double from = ((const struct span *)one)->from, than = ((const struct span *)other)->from;
  return (from > than) - (from < than);
}

// For how long at least one line was polled in a round.
static double polled(int round) {
  struct span spans[MOST_LINES];
  for (int number = 0; number < lines; number++) spans[number] = all[number].rounds[round];
  qsort(spans, (size_t)lines, sizeof *spans, is_later);
  double time = 0, end = 0;
  for (int number = 0; number < lines; number++) {
    double from = spans[number].from > end ? spans[number].from : end;
    if (spans[number].to <= from) continue;
    time += spans[number].to - from;
    end = spans[number].to;
  }
  return time;
}

static double longest(int round) {
  double time = 0;
  for (int number = 0; number < lines; number++) {
    struct span *span = &all[number].rounds[round];
    if (span->to - span->from > time) time = span->to - span->from;
  }
  return time;
}

int main(int argc, char **argv) {
  if (argc != 5) return 1;
  lines = atoi(argv[2]);
  gauges = atoi(argv[3]);
  rounds = atoi(argv[4]);
  if (lines < 1 || lines > MOST_LINES || gauges < 1 || gauges > MOST_GAUGES || rounds < 1 || rounds > MOST_ROUNDS) return 1;
  alarm(120);
  pthread_barrier_init(&together, NULL, (unsigned)lines);
  pthread_t threads[MOST_LINES];
  for (int number = 0; number < lines; number++)
    if (!listens(&all[number], atoi(argv[1]) + number)) return 6;
  for (int number = 0; number < lines; number++)
    if (pthread_create(&threads[number], NULL, serve, &all[number])) return 7;
  puts("ready");
  fflush(stdout);
  for (int number = 0; number < lines; number++) pthread_join(threads[number], NULL);
  for (int round = 0; round < rounds; round++) printf("%.1f %.1f\n", polled(round), longest(round));
  return 0;
}
