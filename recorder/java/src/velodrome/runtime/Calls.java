package velodrome.runtime;

/**
 * What stands in the place of calls of threads and monitors, or beside them. Each does what the
 * call would, and what the program sees is the same.
 */
public final class Calls {
  private Calls() {}

  // ---- Object.wait
  /** {@link Object#wait()}. */
  public static void await(Object o, int site) throws InterruptedException {
    int holds = beforeWait(o, false, site);
    try {
      o.wait();
    } finally {
      afterWait(o, holds, site);
    }
  }

  /** {@link Object#wait(long)}. */
  public static void await(Object o, long millis, int site) throws InterruptedException {
    int holds = beforeWait(o, millis != 0, site);
    try {
      o.wait(millis);
    } finally {
      afterWait(o, holds, site);
    }
  }

  /** {@link Object#wait(long, int)}. */
  public static void await(Object o, long millis, int nanos, int site)
      throws InterruptedException {
    int holds = beforeWait(o, millis != 0 || nanos != 0, site);
    try {
      o.wait(millis, nanos);
    } finally {
      afterWait(o, holds, site);
    }
  }

  /** All holds of the monitor are released: how many these were. */
  private static int beforeWait(Object o, boolean ends, int site) {
    if (!Recorder.on || o == null || !Thread.holdsLock(o)) {
      return 0;
    }
    try {
      ThreadStream t = Recorder.stream();
      Shadow s = Shadows.of(o);
      int holds = t.holds(s.base);
      t.waitOn(s, holds, ends, site);
      return holds;
    } catch (Throwable e) {
      Recorder.failed(e);
      return 0;
    }
  }

  private static void afterWait(Object o, int holds, int site) {
    if (holds == 0 || !Recorder.on) {
      return;
    }
    try {
      ThreadStream t = Recorder.stream();
      Shadow s = Shadows.of(o);
      for (int i = 0; i < holds; i++) {
        t.acquire(s.base, false, false, site);
      }
      s.setHeld(true);
    } catch (Throwable e) {
      Recorder.failed(e);
    }
  }

  // ---- threads
  /** This object, which may be a thread, is started next. */
  public static void starting(Object o, int site) {
    if (!Recorder.on || !(o instanceof Thread)) {
      return;
    }
    try {
      Thread thread = (Thread) o;
      Shadow s = Shadows.of(thread);
      if (s.ofThread == null && !thread.isAlive()) {
        Recorder.fork(thread, s, site);
      }
    } catch (Throwable e) {
      Recorder.failed(e);
    }
  }

  /** This object, which may be a thread, was started. */
  public static void started(Object o, int site) {
    if (Recorder.on && o instanceof Thread) {
      try {
        Recorder.started((Thread) o);
      } catch (Throwable e) {
        Recorder.failed(e);
      }
    }
  }

  /** This object, which may be a thread, is joined next. */
  public static void joining(Object o, int site) {
    if (Recorder.on && o instanceof Thread) {
      try {
        Recorder.waitForEnd((Thread) o, false, site);
      } catch (Throwable e) {
        Recorder.failed(e);
      }
    }
  }

  /** A join of this object, which may be a thread, is over. */
  public static void joined(Object o, int site) {
    if (Recorder.on && o instanceof Thread) {
      try {
        Recorder.joined((Thread) o, site);
      } catch (Throwable e) {
        Recorder.failed(e);
      }
    }
  }

  /** {@link Thread#join(long, int)}. */
  public static void join(Thread thread, long millis, int nanos, int site)
      throws InterruptedException {
    joining(thread, site);
    thread.join(millis, nanos);
    joined(thread, site);
  }

  /** What `isAlive` said of this object, which may be a thread: false is as a join. */
  public static boolean alive(Object o, boolean is, int site) {
    if (!is) {
      joined(o, site);
    }
    return is;
  }

  /** {@link Runtime#halt} is called next: there is no shutdown. */
  public static void halting() {
    Recorder.end();
  }
}
