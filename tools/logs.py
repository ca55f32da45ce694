"""Writes a log of a kind that is hard for the graph, to standard output.

    python3 tools/logs.py long THREADS BLOCKS SEED     one long block of thread 0, and short blocks of the others behind it
    python3 tools/logs.py classes THREADS VARIABLES BLOCKS
                                                       blocks that keep each other's followers live, in as many ways as there
                                                       can be, and then short blocks of thread 0, each of which wants a node
    python3 tools/logs.py sharers THREADS BLOCKS SEED  blocks that mostly share locks

A `long` or `sharers` log keeps to its locks in most blocks; a few go without, so some logs have an alarm.
"""
import random
import sys


def forks(threads):
    for other in range(1, threads):
        print(f"0 fork {other}")


def long(threads, blocks, seed):
    """What thread 0 writes first, each short block reads: all of them are live until the long block ends."""
    some, value = random.Random(seed), {}
    print(f"vlog 2 {threads} 64 8")
    forks(threads)
    print("0 begin 1\n0 wr 0 7")
    value[0] = 7
    for _ in range(blocks):
        t, lock = some.randrange(1, threads), some.randrange(8)
        print(f"{t} begin {2 + lock}\n{t} rd 0 7\n{t} acq {lock}")
        for x in some.sample(range(1 + lock, 64, 8), 2):
            print(f"{t} rd {x} {value.get(x, 0)}")
            if some.random() < 0.5:
                value[x] = some.randrange(100)
                print(f"{t} wr {x} {value[x]}")
        print(f"{t} rel {lock}\n{t} end")
        if some.random() < 1 / blocks:
            x = some.randrange(1, 64)
            print(f"0 rd {x} {value.get(x, 0)}")
    print("0 end")


def classes(threads, variables, blocks):
    print(f"vlog 2 {threads} {variables} 0")
    forks(threads)
    for j in range(1, threads):
        for i in range(1, j):
            print(f"{j} rd {i} {i}")
        print(f"{j} begin 1\n{j} wr {j} {j}")
    for i in range(1, threads):
        print(f"0 rd {i} {i}")
    print("0 begin 2\n0 end\n" * blocks, end="")


def sharers(threads, blocks, seed):
    some, value = random.Random(seed), {}
    print(f"vlog 2 {threads} 32 8")
    forks(threads)
    for _ in range(blocks):
        t, lock, alone = some.randrange(threads), some.randrange(8), some.random() < 0.1
        print(f"{t} begin {lock}\n{t} {'acq' if alone else 'acqs'} {lock}")
        for x in some.sample(range(lock, 32, 8), 2):
            print(f"{t} rd {x} {value.get(x, 0)}")
            if alone:
                value[x] = some.randrange(100)
                print(f"{t} wr {x} {value[x]}")
        print(f"{t} {'rel' if alone else 'rels'} {lock}\n{t} end")


if __name__ == "__main__":
    kinds = {"long": long, "classes": classes, "sharers": sharers}
    if len(sys.argv) != 5 or sys.argv[1] not in kinds:
        sys.exit(__doc__)
    kinds[sys.argv[1]](*map(int, sys.argv[2:]))
