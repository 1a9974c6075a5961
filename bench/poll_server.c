// A device with 16 input registers, by libmodbus: `poll_server PORT`. It binds to 127.0.0.1 alone, says `ready`, serves one connection
// after another, and ends by itself after two minutes.
#include <modbus/modbus.h>
#include <stdint.h>
#include <stdio.h>
#include <stdlib.h>
#include <unistd.h>

int main(int argc, char **argv) {
  if (argc != 2) return 1;
  alarm(120);
  modbus_t *device = modbus_new_tcp("127.0.0.1", atoi(argv[1]));
  modbus_mapping_t *registers = modbus_mapping_new(0, 0, 0, 16);
  if (!device || !registers) return 7;
  for (int i = 0; i < 16; i++) registers->tab_input_registers[i] = (uint16_t)(1000 + i);
  int listening = modbus_tcp_listen(device, 1);
  if (listening < 0) return 6;
  puts("ready");
  fflush(stdout);
  while (modbus_tcp_accept(device, &listening) >= 0) {
    uint8_t query[MODBUS_TCP_MAX_ADU_LENGTH];
    int size;
    while ((size = modbus_receive(device, query)) >= 0)
      if (size > 0 && modbus_reply(device, query, size, registers) < 0) break;
    modbus_close(device);
  }
  return 0;
}
