package velodrome.runtime;

import java.util.Date;
import java.util.concurrent.TimeUnit;
import java.util.concurrent.locks.Condition;
import java.util.concurrent.locks.ReentrantLock;
import java.util.concurrent.locks.ReentrantReadWriteLock;

/**
 * What stands beside calls of the locks of java.util.concurrent. A lock that the program made
 * itself is seen by what it does.
 */
public final class Locks {
  private Locks() {}

  /** The lock that this object is or belongs to; null if it is none that is followed. */
  private static Shadow lockOf(Object o) {
    boolean isPart =
        o instanceof ReentrantReadWriteLock.ReadLock
            || o instanceof ReentrantReadWriteLock.WriteLock
            || o instanceof Condition;
    if (!isPart && !(o instanceof ReentrantLock)) {
      return null;
    }
    Shadow s = Shadows.of(o);
    Shadow whole = s.whole();
    return whole == null ? s : whole;
  }

  private static boolean isShared(Object o) {
    return o instanceof ReentrantReadWriteLock.ReadLock;
  }

  /** The lock gave out this part of it: a condition, or the lock of its readers or writers. */
  public static void gave(Object part, Object lock) {
    if (Recorder.on && part != null) {
      try {
        boolean isWhole = lock instanceof ReentrantReadWriteLock;
        Shadow whole = isWhole ? Shadows.of(lock) : lockOf(lock);
        if (whole != null) {
          Shadows.of(part).setWhole(whole);
        }
      } catch (Throwable e) {
        Recorder.failed(e);
      }
    }
  }

  /** It is asked for next. */
  public static void locking(Object o, int site) {
    if (Recorder.on) {
      try {
        Shadow s = lockOf(o);
        ThreadStream t = Recorder.stream();
        if (s != null && s.isHeld() && t.holds(s.base) == 0) {
          int what = s.layout.isOf(ReentrantReadWriteLock.class) ? Kind.FOR_RWLOCK : Kind.FOR_MUTEX;
          t.contended(s.base, what, false, site);
        }
      } catch (Throwable e) {
        Recorder.failed(e);
      }
    }
  }

  /** It was acquired. */
  public static void locked(Object o, int site) {
    acquired(o, false, site);
  }

  /** It was tried: whether it was acquired. */
  public static void tried(boolean got, Object o, int site) {
    if (got) {
      acquired(o, true, site);
    }
  }

  private static void acquired(Object o, boolean tried, int site) {
    if (Recorder.on) {
      try {
        Shadow s = lockOf(o);
        if (s != null) {
          ThreadStream t = Recorder.stream();
          s.touch(t);
          t.acquire(s.base, isShared(o), tried, site);
          s.setHeld(true);
        }
      } catch (Throwable e) {
        Recorder.failed(e);
      }
    }
  }

  /** It is released next. */
  public static void unlocking(Object o, int site) {
    if (Recorder.on) {
      try {
        Shadow s = lockOf(o);
        ThreadStream t = Recorder.stream();
        if (s != null && t.holds(s.base) > 0) {
          t.release(s.base, isShared(o), site);
          s.setHeld(t.holds(s.base) > 0);
        }
      } catch (Throwable e) {
        Recorder.failed(e);
      }
    }
  }

  // ---- conditions
  private static int beforeWait(Condition c, boolean ends, int site) {
    if (!Recorder.on || c == null) {
      return 0;
    }
    try {
      Shadow s = lockOf(c);
      ThreadStream t = Recorder.stream();
      int holds = s == null ? 0 : t.holds(s.base);
      if (holds > 0) {
        t.waitOn(s, holds, ends, site);
      }
      return holds;
    } catch (Throwable e) {
      Recorder.failed(e);
      return 0;
    }
  }

  private static void afterWait(Condition c, int holds, int site) {
    if (holds == 0 || !Recorder.on) {
      return;
    }
    try {
      Shadow s = lockOf(c);
      ThreadStream t = Recorder.stream();
      for (int i = 0; i < holds; i++) {
        t.acquire(s.base, false, false, site);
      }
      s.setHeld(true);
    } catch (Throwable e) {
      Recorder.failed(e);
    }
  }

  /** {@link Condition#await()}. */
  public static void await(Condition c, int site) throws InterruptedException {
    int holds = beforeWait(c, false, site);
    try {
      c.await();
    } finally {
      afterWait(c, holds, site);
    }
  }

  /** {@link Condition#awaitUninterruptibly()}. */
  public static void awaitUninterruptibly(Condition c, int site) {
    int holds = beforeWait(c, false, site);
    try {
      c.awaitUninterruptibly();
    } finally {
      afterWait(c, holds, site);
    }
  }

  /** {@link Condition#awaitNanos(long)}. */
  public static long awaitNanos(Condition c, long nanos, int site) throws InterruptedException {
    int holds = beforeWait(c, true, site);
    try {
      return c.awaitNanos(nanos);
    } finally {
      afterWait(c, holds, site);
    }
  }

  /** {@link Condition#await(long, TimeUnit)}. */
  public static boolean await(Condition c, long time, TimeUnit unit, int site)
      throws InterruptedException {
    int holds = beforeWait(c, true, site);
    try {
      return c.await(time, unit);
    } finally {
      afterWait(c, holds, site);
    }
  }

  /** {@link Condition#awaitUntil(Date)}. */
  public static boolean awaitUntil(Condition c, Date deadline, int site)
      throws InterruptedException {
    int holds = beforeWait(c, true, site);
    try {
      return c.awaitUntil(deadline);
    } finally {
      afterWait(c, holds, site);
    }
  }
}
