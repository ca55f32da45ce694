package velodrome.runtime;

import java.lang.invoke.MethodHandles;
import java.lang.invoke.VarHandle;

/**
 * A lock and a clock for each of many stripes of addresses. A stamp that is taken under the stripe
 * of an address is above all that were taken there before.
 */
final class Stripes {
  private static final int STRIPES = 1 << 16;
  private static final int LINE_SHIFT = 6;

  /** How long a holder that stays away is waited for. */
  private static final long PATIENCE_NANOS = 100_000_000;

  private static final int SPINS = 100;
  private static final VarHandle INTS = MethodHandles.arrayElementVarHandle(int[].class);

  /** Of each stripe: a thread plus one, or 0. */
  private static final int[] owner = new int[STRIPES];

  private static final long[] clock = new long[STRIPES];

  private Stripes() {}

  static int of(long address) {
    return (int) (address >>> LINE_SHIFT) & STRIPES - 1;
  }

  /** Takes the stripe. False if its holder stayed away, and the thread goes on without. */
  static boolean take(int stripe, int thread) {
    return INTS.compareAndSet(owner, stripe, 0, thread + 1) || takeSlowly(stripe, thread);
  }

  private static boolean takeSlowly(int stripe, int thread) {
    long since = System.nanoTime();
    for (int i = 0; ; i++) {
      if (INTS.compareAndSet(owner, stripe, 0, thread + 1)) {
        return true;
      }
      if (i < SPINS) {
        Thread.onSpinWait();
        continue;
      }
      if (System.nanoTime() - since > PATIENCE_NANOS) {
        INTS.setVolatile(owner, stripe, thread + 1);
        return false;
      }
      Thread.yield();
    }
  }

  static void giveBack(int stripe, int thread) {
    if (owner[stripe] == thread + 1) {
      INTS.setRelease(owner, stripe, 0);
    }
  }

  /** The clock of a stripe that the thread holds. */
  static long clock(int stripe) {
    return clock[stripe];
  }

  static void setClock(int stripe, long to) {
    clock[stripe] = to;
  }
}
