// The trace that the runtime writes and velodrome-log reads.
//
// A page for the head, then chunks of CHUNK records of 16 bytes. The first record of a chunk is its
// own (below); the chunk ends at its first record whose `what` is 0. The chunks of a thread, by
// rounds, and in the order of the file, are its stream.
//
//   what    round << ROUND_SHIFT | thread plus one
//   where   records of its state << STATE_SHIFT | upper half of the code addresses
//
// A trace that is full is a ring: a chunk that its thread has left makes way for a new one, of the
// next round. Up to the stamp `overwritten_until` records are missing, so a log begins behind it. A
// chunk therefore begins with the thread's state: STATE, and the BEGIN of each open block.
//
// All other records:
//
//   what    address << 16 | flags << 13 | size << 5 | kind
//   where   stamp << 32 | lower half of the code address
//
// Stamps rise along each stream, and from one event to a later one of another thread that it
// conflicts with: sorted by stamps, streams merged, the records are a sequence that the program
// did. BEGIN, NAMED, END, MORE, HIGH and STATE have no stamp; they belong to the event next to
// them.
#pragma once
#include <stdint.h>

struct record {
    uint64_t what, where;
};

enum kind {
    RD = 1,
    WR, // an access of `size` bytes
    RDS,
    WRS, // of a range; MORE: bytes
    ARD,
    AWR,   // an atomic one
    BEGIN, // address: where it was called; where: the function, and above its FRAME_SHIFT bits how
           // far its frame pointer lies below the outer one's, in FRAME_UNITs (0 unknown)
    NAMED, // likewise of VELODROME_ATOMIC; where: the address of its name
    END,   // address: the frame that ends
    ACQ,
    REL, // a lock alone
    ACQS,
    RELS, // a share of a lock
    FORK,
    JOIN, // address: the other thread
    EXIT,
    ALLOC, // memory that begins anew; MORE: bytes; by which calls, as one number
    START, // of a thread. address: its stack; code: its routine; MORE: bytes of the stack
    SRD,
    SWR,   // what a semaphore, a barrier or a once orders
    WAIT,  // the open blocks wait here. address: for what; size: a kind of `enum wait`
    MORE,  // where: a number that belongs to the record before
    HIGH,  // address: the upper half of the code addresses from here on
    TITLE, // the thread's name: two MORE of 8 bytes
    STUCK, // the thread waits in a deadlock. address: for what; size: a kind of `enum wait`; MORE:
           // thread that holds it, plus one
    CONTENDED, // a lock was not free. address: the lock; size: a kind of `enum wait`; TRIED: the
               // wait ends by itself after a time
    STATE,     // of a chunk's thread. address: its stack; where: its routine; MORE: bytes of the
               // stack; open blocks, of which the outer MAX_STATE follow; the two of its TITLE
};

enum flag {
    LATE = 1,     // not surely in the order of the accesses
    MISSED = 1,   // of ARD: of a compare-and-swap that found another value
    EXPECTED = 2, // of ARD: of a compare-and-swap with what the thread had seen there
    LEAVES = 1,   // of WAIT: the open blocks do nothing until the thread returns to them
    CHANGES = 1,  // of AWR: of a read-modify-write
    RETURNS = 2,  // of WAIT: it does
    AGAIN = 2,  // of AWR: of an exchange that stores what the thread's exchange there stored before
    VALUED = 2, // of MORE: it is the value of the access
    TRIED = 4,  // of ACQ and ACQS: by a trylock; of ARD: by a compare-and-swap
};

enum mode { FREE, EXACT, SERIAL };
enum wait {
    FOR_TIME,
    FOR_MUTEX,
    FOR_RWLOCK,
    FOR_SPIN,
    FOR_CONDITION,
    FOR_SEMAPHORE,
    FOR_BARRIER,
    FOR_ONCE,
    FOR_THREAD,
    FOR_FUTEX
};

struct head {
    uint64_t magic, mode, seed, values;
    uint64_t chunks, most; // chunks that were given out; most records
    uint64_t lost, late, seized, switches, stuck, noise;
    uint64_t stopped;                        // enum stop
    uint64_t overwritten, overwritten_until; // records that made way for others; their last stamp
};
enum stop { GOES_ON, FULL, NO_SPACE, ENDED, FIBERS, TOO_LONG };

#define MAGIC 0x3265636172746c76ull // "vltrace2"
#define CHUNK 512
#define ROUND_SHIFT 24
#define STATE_SHIFT 32
#define MAX_STATE 128
#define STATE_NUMBERS 4
#define HEAD_BYTES 4096
#define FRAME_SHIFT 48
#define FRAME_UNIT 16
