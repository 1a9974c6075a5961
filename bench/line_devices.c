// Devices of gauge lines, by libmodbus: `line_devices PORT LINES LEVEL`. It binds to 127.0.0.1 alone, listens on this port and those after it,
// one for each line, says `ready`, and serves one connection after another on each. A line has two gauges of five input registers, which are
// a level in mm, a temperature in 0.01 C, water in mm, a word whose lowest bit says that they are valid, and an ambient temperature. A gauge's
// first level is the one after LEVEL, and each poll finds the next one. It ends by a signal, or by itself after five minutes.
#include <modbus/modbus.h>
#include <pthread.h>
#include <stdint.h>
#include <stdio.h>
#include <stdlib.h>
#include <unistd.h>

enum { GAUGES = 2, QUANTITY = 5, MOST = 16 };

struct line {
  modbus_t *device;
  modbus_mapping_t *registers;
  int listening;
};

// The gauge that a query asks for, which begins at its first register.
static int gauge_of(modbus_t *device, const uint8_t *query) {
  const uint8_t *address = query + modbus_get_header_length(device) + 1;
  return (address[0] << 8 | address[1]) / QUANTITY % GAUGES;
}

static int listens(struct line *line, int port, int level) {
  line->device = modbus_new_tcp("127.0.0.1", port);
  line->registers = modbus_mapping_new(0, 0, 0, GAUGES * QUANTITY);
  if (!line->device || !line->registers) return 0;
  for (int gauge = 0; gauge < GAUGES; gauge++) {
    uint16_t *words = line->registers->tab_input_registers + gauge * QUANTITY;
    words[0] = (uint16_t)level;
    words[1] = 1500;
    words[3] = 1;
    words[4] = 1200;
  }
  line->listening = modbus_tcp_listen(line->device, 1);
  return line->listening >= 0;
}

static void *serve(void *it) {
  struct line *line = it;
  while (modbus_tcp_accept(line->device, &line->listening) >= 0) {
    uint8_t query[MODBUS_TCP_MAX_ADU_LENGTH];
    int size;
    while ((size = modbus_receive(line->device, query)) >= 0) {
      if (size == 0) continue;
      line->registers->tab_input_registers[gauge_of(line->device, query) * QUANTITY]++;
      if (modbus_reply(line->device, query, size, line->registers) < 0) break;
    }
    modbus_close(line->device);
  }
  return NULL;
}

int main(int argc, char **argv) {
  int lines = argc == 4 ? atoi(argv[2]) : 0;
  if (lines < 1 || lines > MOST) return 1;
  alarm(300);
  struct line all[MOST];
  pthread_t threads[MOST];
  for (int number = 0; number < lines; number++)
    if (!listens(&all[number], atoi(argv[1]) + number, atoi(argv[3]))) return 6;
  for (int number = 0; number < lines; number++)
    if (pthread_create(&threads[number], NULL, serve, &all[number])) return 7;
  puts("ready");
  fflush(stdout);
  for (int number = 0; number < lines; number++) pthread_join(threads[number], NULL);
  return 0;
}
