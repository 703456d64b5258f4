#!/usr/bin/env python3
"""packets.py PROGRAM JOURNAL: what the program says of the journal is the same, whether it is a file, a pipe of packets or a socket of packets.

The journal is one packet, of which a read loses what it does not take."""
import os
import socket
import subprocess
import sys

# the least size of a read that the test can tell from a whole one
LEAST_PACKET = 513

program, path = sys.argv[1:]
with open(path, "rb") as file:
    journal = file.read()
if not LEAST_PACKET <= len(journal) <= 4096:
    sys.exit(f"test-yearbook: FAILED, {path} has {len(journal)} bytes, which are no packet")


def pipe_of_packets():
    reader, writer = os.pipe2(os.O_DIRECT)
    os.write(writer, journal)
    os.close(writer)
    return reader


def socket_of_packets():
    writer, reader = socket.socketpair(socket.AF_UNIX, socket.SOCK_SEQPACKET)
    writer.send(journal)
    writer.close()
    return reader.detach()


def told(word, descriptor):
    done = subprocess.run([program, *word], stdin=descriptor, capture_output=True, timeout=60)
    os.close(descriptor)
    return done.returncode, done.stdout, done.stderr


count = 0
for word in [], ["replies"], ["run"], ["page"], ["narrow"]:
    expected = told(word, os.open(path, os.O_RDONLY))
    for name, descriptor in ("a pipe", pipe_of_packets()), ("a socket", socket_of_packets()):
        count += 1
        if told(word, descriptor) != expected:
            sys.exit(f"test-yearbook: FAILED, of {path} as a packet of {name} yearbook {' '.join(word)} says something else")
print(f"test-yearbook: passed, {count} times a journal that is one packet")
