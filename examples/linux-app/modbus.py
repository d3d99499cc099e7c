#!/usr/bin/env python3
"""Reads and writes the registers of app.c by pymodbus, a client for Modbus that no one here wrote: modbus.py ROUNDS. It compares each value
that it reads with the one that it wrote, and prints how many were right."""
import random
import sys

from pymodbus.client import ModbusTcpClient

rounds = int(sys.argv[1])
client = ModbusTcpClient("10.0.0.1", port=502, timeout=60)
if not client.connect():
    sys.exit("modbus: no connection")
wanted, right, choice = [0] * 125, 0, random.Random(5)


def check(answer, what):
    if answer.isError():
        sys.exit(f"modbus: {what}: {answer}")
    return answer


for number in range(rounds):
    first = choice.randrange(125)
    values = [choice.randrange(65536) for _ in range(choice.randint(1, min(57, 125 - first)))]
    if len(values) == 1:
        check(client.write_register(first, values[0], slave=1), "write one")
    else:
        check(client.write_registers(first, values, slave=1), "write some")
    wanted[first:first + len(values)] = values
    read = check(client.read_holding_registers(0, 125, slave=1), "read").registers
    if read != wanted:
        sys.exit(f"modbus: round {number}: wrong registers")
    right += 1
refused = [client.read_holding_registers(120, 6, slave=1), client.read_coils(0, 1, slave=1)]
if [answer.exception_code for answer in refused] != [2, 1]:
    sys.exit("modbus: a wrong exception")
client.close()
print(f"Modbus: {right} of {rounds} rounds of a write and a read of 125 registers right, 2 exceptions right")
