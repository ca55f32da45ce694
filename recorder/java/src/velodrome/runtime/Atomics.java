package velodrome.runtime;

/**
 * What stands beside calls of the classes of java.util.concurrent.atomic. What comes before a call
 * takes the variable's stripe, and what comes after it tells what was done and gives it back, so
 * that the trace has the order of the program.
 */
public final class Atomics {
  private Atomics() {}

  /** The value of this object is accessed next. */
  public static void before(Object o) {
    before(o, 0);
  }

  /** This element of an array of values is accessed next. */
  public static void before(Object o, int index) {
    if (Recorder.on && o != null) {
      try {
        ThreadStream t = Recorder.stream();
        Shadow s = Shadows.of(o);
        s.touch(t);
        t.holdAtomic(index < 0 || index >= s.length ? 0 : s.element(index));
      } catch (Throwable e) {
        Recorder.failed(e);
      }
    }
  }

  /** It was read. */
  public static void read(int site) {
    after(true, false, site);
  }

  /** It was written. */
  public static void wrote(int site) {
    after(false, true, site);
  }

  /** It was read and written. */
  public static void changed(int site) {
    after(true, true, site);
  }

  /** It was compared, and written if that was what was expected. */
  public static void swapped(boolean done, int site) {
    if (Recorder.on) {
      try {
        Recorder.stream().tellSwap(done, site);
      } catch (Throwable e) {
        Recorder.failed(e);
      }
    }
  }

  /** Likewise; what was found and what was expected. */
  public static void exchanged(int found, int expected, int site) {
    swapped(found == expected, site);
  }

  /** Likewise. */
  public static void exchanged(long found, long expected, int site) {
    swapped(found == expected, site);
  }

  /** Likewise. */
  public static void exchanged(float found, float expected, int site) {
    swapped(Float.floatToRawIntBits(found) == Float.floatToRawIntBits(expected), site);
  }

  /** Likewise. */
  public static void exchanged(double found, double expected, int site) {
    swapped(Double.doubleToRawLongBits(found) == Double.doubleToRawLongBits(expected), site);
  }

  /** Likewise. */
  public static void exchanged(Object found, Object expected, int site) {
    swapped(found == expected, site);
  }

  private static void after(boolean reads, boolean writes, int site) {
    if (Recorder.on) {
      try {
        Recorder.stream().tellAtomic(reads, writes, site);
      } catch (Throwable e) {
        Recorder.failed(e);
      }
    }
  }
}
