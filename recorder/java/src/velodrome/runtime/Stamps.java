package velodrome.runtime;

import java.util.concurrent.locks.StampedLock;

/** What stands beside calls of {@link StampedLock}. An optimistic read takes no lock. */
public final class Stamps {
  private Stamps() {}

  /** A call gave this stamp: 0 where it got nothing. */
  public static void got(long stamp, StampedLock lock, int site) {
    if (Recorder.on && stamp != 0) {
      try {
        boolean shared = StampedLock.isReadLockStamp(stamp);
        if (shared || StampedLock.isWriteLockStamp(stamp)) {
          Shadow s = Shadows.of(lock);
          ThreadStream t = Recorder.stream();
          s.touch(t);
          t.acquire(s.base, shared, false, site);
          s.setHeld(true);
        }
      } catch (Throwable e) {
        Recorder.failed(e);
      }
    }
  }

  /** What this stamp stands for is given back next. */
  public static void giving(StampedLock lock, long stamp, int site) {
    if (Recorder.on) {
      try {
        release(lock, stamp, site);
      } catch (Throwable e) {
        Recorder.failed(e);
      }
    }
  }

  private static void release(StampedLock lock, long stamp, int site) {
    Shadow s = Shadows.of(lock);
    ThreadStream t = Recorder.stream();
    boolean shared = StampedLock.isReadLockStamp(stamp);
    if ((shared || StampedLock.isWriteLockStamp(stamp)) && t.holds(s.base) > 0) {
      t.release(s.base, shared, site);
      s.setHeld(t.holds(s.base) > 0);
    }
  }

  /** One stamp became another: 0 where it did not. */
  public static void became(long stamp, StampedLock lock, long before, int site) {
    if (Recorder.on && stamp != 0 && stamp != before) {
      giving(lock, before, site);
      got(stamp, lock, site);
    }
  }
}
