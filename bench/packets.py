#!/usr/bin/env python3
"""Events a second of the built program, on a script of many UDP packets.

usage: bench/packets.py [PACKETS [ENDPOINTS]]     (100000 and 1000 by default)

Run it from the top of the repository, after `./build`
has built crates/natpair/out/natpair. It is a benchmark and no test: nothing compares its numbers.
"""
import os
import struct
import subprocess
import sys
import tempfile
import time

PROGRAM = os.path.join(os.path.dirname(__file__), "..", "crates", "natpair", "out", "natpair")
SETTINGS = os.path.join(os.path.dirname(__file__), "..", "examples", "S.toml")


def checksum(data):
    if len(data) % 2:
        data += b"\0"
    total = sum(struct.unpack(f">{len(data) // 2}H", data))
    while total > 0xFFFF:
        total = (total & 0xFFFF) + (total >> 16)
    return 0xFFFF - total


def packet(endpoint, payload):
    """A frame from an inside host to 198.51.100.7:53."""
    source = bytes([192, 168, 1, 10 + endpoint % 200])
    target = bytes([198, 51, 100, 7])
    length = 8 + len(payload)
    udp = struct.pack(">HHHH", 5000 + endpoint // 200, 53, length, 0) + payload
    pseudo = source + target + struct.pack(">BBH", 0, 17, length)
    udp = udp[:6] + struct.pack(">H", checksum(pseudo + udp) or 0xFFFF) + udp[8:]
    header = struct.pack(">BBHHHBBH", 0x45, 0, 20 + length, 1, 0, 64, 17, 0) + source + target
    header = header[:10] + struct.pack(">H", checksum(header)) + header[12:]
    ethernet = bytes.fromhex("00005e00010b" "02000000000a" "0800")
    return ethernet + header + udp


def main():
    packets = int(sys.argv[1]) if len(sys.argv) > 1 else 100_000
    endpoints = int(sys.argv[2]) if len(sys.argv) > 2 else 1_000
    frames = [packet(e, b"x" * 32).hex() for e in range(endpoints)]
    with tempfile.TemporaryDirectory() as folder:
        script = os.path.join(folder, "long.script")
        with open(script, "w") as out:
            out.write("tick 0 360\n")
            for n in range(packets):
                out.write(f"frame 0 inside {frames[n % endpoints]}\n")
        start = time.perf_counter()
        run = subprocess.run([os.path.abspath(PROGRAM), "sim", SETTINGS, script], stdout=subprocess.PIPE)
        spent = time.perf_counter() - start
    sent = run.stdout.count(b" sent\n")
    print(f"{packets + 1} events, {endpoints} endpoints, {sent} sent, status {run.returncode}")
    print(f"{(packets + 1) / spent:,.0f} events a second ({spent:.2f} s, reading and printing included)")


main()
