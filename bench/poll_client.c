// Polls five input registers of a device as often as it is asked to, by libmodbus: `poll_client PORT POLLS`. It prints how many polls
// gave registers, as `programs/poll_bench` does.
#include <modbus/modbus.h>
#include <stdint.h>
#include <stdio.h>
#include <stdlib.h>

int main(int argc, char **argv) {
  if (argc != 3) return 1;
  modbus_t *device = modbus_new_tcp("127.0.0.1", atoi(argv[1]));
  if (!device || modbus_set_slave(device, 1) || modbus_connect(device)) return 6;
  long polls = atol(argv[2]), good = 0;
  for (long i = 0; i < polls; i++) {
    uint16_t words[5];
    if (modbus_read_input_registers(device, 0, 5, words) == 5) good++;
  }
  printf("%ld\n", good);
  modbus_close(device);
  modbus_free(device);
  return 0;
}
