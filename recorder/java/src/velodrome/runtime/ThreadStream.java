package velodrome.runtime;

import java.nio.ByteBuffer;
import java.util.Arrays;

/** What one thread writes into the trace, and what it has open. */
final class ThreadStream {
  /** Room that each event asks for: itself and two MORE. */
  private static final int ROOM = 4 * Trace.RECORD;

  /** Open blocks that are followed. */
  private static final int DEEP = 4096;

  private static final int NEAR_CLOCKS = 64;
  private static final int NONE = -1;

  /** Of the first events of a thread every second one has noise. */
  private static final int FIRST_EVENTS = 64;

  private static final int NOISE_SPINS = 20_000;

  /** A clock that is close to those of all threads. Plain: any value that was there will do. */
  private static long tick;

  final int id;
  final Thread thread;
  private long clock;
  private ByteBuffer chunk;
  private int at;
  private volatile boolean started;
  private boolean finished;
  private int heldStripe = NONE;

  /** The address of the atomic access that comes next. */
  private long atomic;

  // ---- blocks
  private int[] functions = new int[64];
  private long[] positions = new long[64];
  private int depth;
  private int told;
  private long lastPosition = 1;

  /** The innermost block's own number, or outside of blocks a new one after each event. */
  long position = 1;

  /** The outermost block's number; 0 outside of blocks. */
  long outermost;

  // ---- locks
  private Shadow[] entered = new Shadow[16];
  private int enteredCount;
  private long[] held = new long[16];
  private int heldCount;

  /** Bits: classes whose initialization this thread has seen. */
  private long[] used = new long[4];

  // ---- noise
  private long chance;
  private int events;

  ThreadStream(int id, Thread thread, long clock) {
    this.id = id;
    this.thread = thread;
    this.clock = clock;
    this.chance = (Settings.SEED * 0x9e3779b97f4a7c15L + id) * 0xbf58476d1ce4e5b9L | 1;
  }

  long clock() {
    return clock;
  }

  /** What follows comes after this clock. */
  void seen(long other) {
    clock = Math.max(clock, other);
  }

  // ---- records
  private boolean hasRoom() {
    if (chunk != null && Trace.CHUNK - at >= ROOM) {
      return true;
    }
    ByteBuffer next = Recorder.openChunk(id);
    if (next == null) {
      return false;
    }
    chunk = next;
    at = Trace.RECORD;
    return true;
  }

  private void write(long what, long where) {
    chunk.putLong(at + 8, where);
    chunk.putLong(at, what);
    at += Trace.RECORD;
  }

  private void tellBegins() {
    while (told < depth && told < DEEP && hasRoom()) {
      int function = functions[told++];
      if (function < 0) {
        write(Kind.word(Kind.NAMED, 0, 0, Sites.code(-function)), Sites.name(-function));
      } else {
        write(Kind.word(Kind.BEGIN, 0, 0, 0), Sites.code(function));
      }
    }
  }

  private void event(int kind, int flags, int size, long address, int site) {
    if (told < depth) {
      tellBegins();
    }
    if (hasRoom()) {
      write(Kind.word(kind, flags, size, address), clock << 32 | Sites.code(site));
    }
    if (depth == 0) {
      position = ++lastPosition;
    }
  }

  /** A stamp above all that the thread has seen, close to those that others give at the time. */
  private void stamp() {
    long now = tick;
    if (now > clock) {
      clock = now;
    } else if (clock - now > NEAR_CLOCKS) {
      tick = clock;
    }
    clock++;
  }

  private void stampIn(int stripe) {
    seen(Stripes.clock(stripe));
    stamp();
    Stripes.setClock(stripe, clock);
  }

  // ---- the stripe of the last access
  /** The last access is done. */
  void settle() {
    int stripe = heldStripe;
    if (stripe != NONE) {
      heldStripe = NONE;
      Stripes.giveBack(stripe, id);
    }
  }

  private int hold(long address) {
    int stripe = Stripes.of(address);
    boolean late = !Stripes.take(stripe, id);
    heldStripe = stripe;
    stampIn(stripe);
    return late ? Kind.LATE : 0;
  }

  private void begin() {
    settle();
    if (Settings.NOISE > 0) {
      makeNoise();
    }
  }

  private void makeNoise() {
    chance ^= chance << 13;
    chance ^= chance >>> 7;
    chance ^= chance << 17;
    long every = events++ < FIRST_EVENTS ? Math.min(2, Settings.NOISE) : Settings.NOISE;
    if (Long.remainderUnsigned(chance, every) != 0) {
      return;
    }
    if ((chance & 1L << 40) == 0) {
      Thread.yield();
      return;
    }
    for (int i = (int) (chance >>> 41) % NOISE_SPINS; i > 0; i--) {
      Thread.onSpinWait();
    }
  }

  // ---- accesses
  /** In `exact` the stripe is held until the access is done: this, or null if nothing is held. */
  ThreadStream access(boolean write, long address, int site) {
    begin();
    int flags = 0;
    if (Settings.EXACT) {
      flags = hold(address);
    } else {
      stamp();
    }
    event(write ? Kind.WR : Kind.RD, flags, 8, address, site);
    return Settings.EXACT ? this : null;
  }

  /** An access to a volatile field, which is done right after it: this. */
  ThreadStream atomic(boolean reads, boolean writes, long address, int site) {
    holdAtomic(address);
    atomicHeld(reads, writes, address, site);
    return this;
  }

  /** An atomic access comes next; address 0: to nothing. */
  void holdAtomic(long address) {
    begin();
    atomic = address;
    if (address != 0) {
      hold(address);
    }
  }

  /** That access is done. A hook in between took over, and it is not told. */
  void tellAtomic(boolean reads, boolean writes, int site) {
    if (isAtomicHeld()) {
      atomicHeld(reads, writes, atomic, site);
    }
    atomic = 0;
    settle();
  }

  /** A compare-and-swap is done. */
  void tellSwap(boolean done, int site) {
    if (isAtomicHeld()) {
      event(Kind.ARD, done ? Kind.TRIED : Kind.TRIED | Kind.MISSED, 8, atomic, site);
      if (done) {
        stampIn(heldStripe);
        event(Kind.AWR, Kind.CHANGES, 8, atomic, site);
      }
    }
    atomic = 0;
    settle();
  }

  private boolean isAtomicHeld() {
    return atomic != 0 && heldStripe == Stripes.of(atomic);
  }

  private void atomicHeld(boolean reads, boolean writes, long address, int site) {
    if (reads) {
      event(Kind.ARD, 0, 8, address, site);
    }
    if (reads && writes) {
      stampIn(heldStripe);
    }
    if (writes) {
      event(Kind.AWR, reads ? Kind.CHANGES : 0, 8, address, site);
    }
  }

  // ---- what orders
  private void ordering(int kind, int flags, int size, long address, int site) {
    begin();
    hold(address);
    event(kind, flags, size, address, site);
    settle();
  }

  void acquire(long lock, boolean shared, boolean tried, int site) {
    ordering(shared ? Kind.ACQS : Kind.ACQ, tried ? Kind.TRIED : 0, 0, lock, site);
    if (heldCount == held.length) {
      held = Arrays.copyOf(held, 2 * heldCount);
    }
    held[heldCount++] = lock;
  }

  void release(long lock, boolean shared, int site) {
    ordering(shared ? Kind.RELS : Kind.REL, 0, 0, lock, site);
    for (int i = heldCount - 1; i >= 0; i--) {
      if (held[i] == lock) {
        System.arraycopy(held, i + 1, held, i, --heldCount - i);
        return;
      }
    }
  }

  int holds(long lock) {
    int times = 0;
    for (int i = 0; i < heldCount; i++) {
      times += held[i] == lock ? 1 : 0;
    }
    return times;
  }

  /** Whether the thread uses the class of this initializer for the first time. */
  boolean usesFirst(int initializer) {
    int word = initializer / Long.SIZE;
    if (word >= used.length) {
      used = Arrays.copyOf(used, 2 * word);
    }
    long before = used[word];
    used[word] = before | 1L << initializer;
    return used[word] != before;
  }

  void contended(long lock, int what, boolean ends, int site) {
    begin();
    stamp();
    event(Kind.CONTENDED, ends ? Kind.TRIED : 0, what, lock, site);
  }

  void order(boolean writes, long object, int site) {
    ordering(writes ? Kind.SWR : Kind.SRD, 0, 0, object, site);
  }

  /** The open blocks wait here: each is two from here on. */
  void waitFor(int what, boolean ends, long object, int site) {
    begin();
    stamp();
    event(Kind.WAIT, ends ? Kind.TRIED : 0, what, object, site);
    for (int i = 0; i < depth && i < positions.length; i++) {
      positions[i] = ++lastPosition;
    }
    if (depth > 0) {
      position = positions[Math.min(depth, positions.length) - 1];
      outermost = positions[0];
    }
  }

  /** The thread gives back all holds of the monitor, and waits there. */
  void waitOn(Shadow lock, int holds, boolean ends, int site) {
    for (int i = 1; i < holds; i++) {
      release(lock.base, false, site);
    }
    waitFor(Kind.FOR_CONDITION, ends, lock.base, site);
    release(lock.base, false, site);
    lock.setHeld(false);
  }

  // ---- threads
  void setStarted() {
    started = true;
  }

  /** Whether the thread is no more. `getState` may be the program's own; `isAlive` is final. */
  boolean isOver() {
    return started && !thread.isAlive();
  }

  void start(int name) {
    setStarted();
    stamp();
    if (hasRoom()) {
      write(Kind.word(Kind.START, 0, 0, 0), clock << 32 | Sites.label(name));
      write(Kind.word(Kind.MORE, 0, 0, 0), 0);
    }
  }

  void fork(int child, int site) {
    begin();
    stamp();
    event(Kind.FORK, 0, 0, child, site);
  }

  void join(ThreadStream other, int site) {
    begin();
    seen(other.clock);
    stamp();
    event(Kind.JOIN, 0, 0, other.id, site);
  }

  /** The thread is no more; another one tells its end. */
  synchronized void finish() {
    if (finished) {
      return;
    }
    finished = true;
    settle();
    stamp();
    depth = told;
    event(Kind.EXIT, 0, 0, 0, 0);
  }

  // ---- blocks: a begin is written once an event stands in the block
  void open(int function) {
    if (depth < DEEP) {
      if (depth == functions.length) {
        functions = Arrays.copyOf(functions, 2 * depth);
        positions = Arrays.copyOf(positions, 2 * depth);
      }
      functions[depth] = function;
      position = positions[depth] = ++lastPosition;
      if (depth == 0) {
        outermost = position;
      }
    }
    depth++;
  }

  void close() {
    if (depth == 0) {
      return;
    }
    settle();
    depth--;
    if (told > depth) {
      told = depth;
      if (hasRoom()) {
        write(Kind.word(Kind.END, 0, 0, 0), 0);
      }
    }
    if (depth == 0) {
      outermost = 0;
      position = ++lastPosition;
    } else if (depth <= positions.length) {
      position = positions[depth - 1];
    }
  }

  // ---- synchronized methods
  void enter(Shadow lock, int site) {
    acquire(lock.base, false, false, site);
    if (enteredCount == entered.length) {
      entered = Arrays.copyOf(entered, 2 * enteredCount);
    }
    entered[enteredCount++] = lock;
  }

  void exit(int site) {
    if (enteredCount > 0) {
      Shadow lock = entered[--enteredCount];
      entered[enteredCount] = null;
      release(lock.base, false, site);
      lock.setHeld(holds(lock.base) > 0);
    }
  }
}
