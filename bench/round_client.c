// Polls the 16 gauges of `round_server` round by round, with a pause of a second between two, by libmodbus: `round_client PORT ROUNDS`.
#include <modbus/modbus.h>
#include <stdint.h>
#include <stdlib.h>
#include <unistd.h>

enum { GAUGES = 16, QUANTITY = 5 };

int main(int argc, char **argv) {
  if (argc != 3) return 1;
  modbus_t *device = modbus_new_tcp("127.0.0.1", atoi(argv[1]));
  if (!device || modbus_set_slave(device, 1) || modbus_connect(device)) return 6;
  for (int round = 0; round < atoi(argv[2]); round++) {
    if (round > 0) sleep(1);
    for (int gauge = 0; gauge < GAUGES; gauge++) {
      uint16_t words[QUANTITY];
      if (modbus_read_input_registers(device, gauge * QUANTITY, QUANTITY, words) != QUANTITY) return 6;
    }
  }
  modbus_close(device);
  modbus_free(device);
  return 0;
}
