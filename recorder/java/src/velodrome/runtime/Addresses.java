package velodrome.runtime;

import java.util.concurrent.atomic.AtomicLong;

/** Addresses of the trace for variables and locks. None is given twice. */
final class Addresses {
  /** Above all code of the trace. */
  static final long FIRST = 1L << 40;

  static final long END = 1L << 47;

  /** Objects begin at a stripe of their own. */
  private static final int ALIGNED = 64;

  private static final AtomicLong next = new AtomicLong(FIRST);

  private Addresses() {}

  /** So many places of 8 bytes. */
  static long take(long places) {
    long bytes = (places * 8 + ALIGNED - 1) / ALIGNED * ALIGNED;
    long at = next.getAndAdd(bytes);
    if (at + bytes > END) {
      Recorder.stop("there are no addresses left");
      next.set(FIRST);
      return FIRST;
    }
    return at;
  }
}
