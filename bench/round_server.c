// A device with the registers of 16 gauges, by libmodbus: `round_server PORT`. It binds to 127.0.0.1 alone, says `ready`, and serves one
// connection after another. Of each round of 16 polls it prints how many polls a second came, from the first request to the last. It ends by
// itself after two minutes.
#include <modbus/modbus.h>
#include <stdint.h>
#include <stdio.h>
#include <stdlib.h>
#include <time.h>
#include <unistd.h>

enum { GAUGES = 16, QUANTITY = 5 };

static double now(void) {
  struct timespec at;
  clock_gettime(CLOCK_MONOTONIC, &at);
  return (double)at.tv_sec + (double)at.tv_nsec / 1e9;
}

int main(int argc, char **argv) {
  if (argc != 2) return 1;
  alarm(120);
  modbus_t *device = modbus_new_tcp("127.0.0.1", atoi(argv[1]));
  modbus_mapping_t *registers = modbus_mapping_new(0, 0, 0, GAUGES * QUANTITY);
  if (!device || !registers) return 7;
  for (int i = 0; i < GAUGES * QUANTITY; i++) registers->tab_input_registers[i] = (uint16_t)(1000 + i);
  int listening = modbus_tcp_listen(device, 1);
  if (listening < 0) return 6;
  puts("ready");
  fflush(stdout);
  while (modbus_tcp_accept(device, &listening) >= 0) {
    uint8_t query[MODBUS_TCP_MAX_ADU_LENGTH];
    double first = 0;
    int polls = 0, size;
    while ((size = modbus_receive(device, query)) >= 0) {
      if (size == 0) continue;
      double came = now();
      if (modbus_reply(device, query, size, registers) < 0) break;
      if (polls == 0) first = came;
      if (++polls < GAUGES) continue;
      printf("%.1f\n", (GAUGES - 1) / (came - first));
      fflush(stdout);
      polls = 0;
    }
    modbus_close(device);
  }
  return 0;
}
