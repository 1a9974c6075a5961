"""The devices of line_devices.c by pymodbus, whose server takes many connections: `line_devices.py HOST PORT LINES LEVEL`. It binds to
HOST alone, and ends by a signal."""
import asyncio
import signal
import sys

from pymodbus.datastore import ModbusSequentialDataBlock, ModbusServerContext, ModbusSlaveContext
from pymodbus.server.async_io import ModbusTcpServer

GAUGES, QUANTITY = 2, 5


class Gauges(ModbusSequentialDataBlock):
    """Registers of gauges. A read finds the next level of the gauge that begins at its first register."""

    def getValues(self, address, count=1):
        self.values[address // QUANTITY * QUANTITY] += 1
        return super().getValues(address, count)


async def main(host, port, lines, level):
    servers = []
    for number in range(lines):
        registers = Gauges(0, [level, 1500, 0, 1, 1200] * GAUGES)
        context = ModbusServerContext(slaves=ModbusSlaveContext(ir=registers, zero_mode=True), single=True)
        servers.append(ModbusTcpServer(context, address=(host, port + number), allow_reuse_address=True).serve_forever())
    print("ready", flush=True)
    await asyncio.gather(*servers)


signal.alarm(300)
asyncio.run(main(sys.argv[1], *map(int, sys.argv[2:])))
