"""Clients on loopback for programs under the recorder: python3 load.py http|memcached PORT CLIENTS REQUESTS. Ends by itself."""
import random
import socket
import sys
import threading
import time


def connect(port):
    for _ in range(100):
        try:
            return socket.create_connection(("127.0.0.1", port), timeout=30)
        except OSError:
            time.sleep(0.1)
    raise SystemExit(f"nobody listens on {port}")


def http(port, requests, _):
    for _ in range(requests):
        with connect(port) as s:
            s.sendall(b"GET / HTTP/1.0\r\nHost: localhost\r\n\r\n")
            while s.recv(4096):
                pass


def memcached(port, requests, seed):
    chance = random.Random(seed)
    with connect(port) as s, s.makefile("rb") as f:
        for _ in range(requests):
            key = b"key%d" % chance.randrange(20)
            what = chance.randrange(6)
            if what < 2:
                value = b"x" * chance.randrange(1, 300)
                s.sendall(b"set %s 0 0 %d\r\n%s\r\n" % (key, len(value), value))
                f.readline()
            elif what == 2:
                s.sendall(b"incr %s 1\r\n" % key)
                f.readline()
            elif what == 3:
                s.sendall(b"delete %s\r\n" % key)
                f.readline()
            else:
                s.sendall(b"get %s\r\n" % key)
                while f.readline() not in (b"END\r\n", b""):
                    pass


def main(words):
    client, port, clients, requests = {"http": http, "memcached": memcached}[words[0]], *map(
        int, words[1:]
    )
    threads = [threading.Thread(target=client, args=(port, requests, i)) for i in range(clients)]
    for t in threads:
        t.start()
    for t in threads:
        t.join()


main(sys.argv[1:])
