package velodrome.runtime;

import java.util.Arrays;

/**
 * Initializers of classes. Each is a lock that the thread which runs it has alone; whoever first
 * uses the class later has a share of it once.
 */
public final class Initializers {
  private static final int FIRST_SIZE = 64;

  private static int count = 1;
  private static String[] names = new String[FIRST_SIZE];

  /** The addresses as locks; 0 before it ran. */
  private static long[] locks = new long[FIRST_SIZE];

  /** The threads that ran them. */
  private static ThreadStream[] runners = new ThreadStream[FIRST_SIZE];

  private Initializers() {}

  /** A number above 0 for the initializer of a class of this internal name. */
  public static synchronized int reserve(String type) {
    int number = count++;
    if (number == names.length) {
      names = Arrays.copyOf(names, 2 * number);
      locks = Arrays.copyOf(locks, 2 * number);
      runners = Arrays.copyOf(runners, 2 * number);
    }
    names[number] = "initialization of " + type.substring(type.lastIndexOf('/') + 1);
    return number;
  }

  private static synchronized long lockOf(int number, ThreadStream runner) {
    if (locks[number] == 0) {
      locks[number] = Addresses.take(1);
      runners[number] = runner;
      Names.variable(locks[number], names[number]);
    }
    return locks[number];
  }

  /** The initializer runs next. */
  public static void begin(int number, int site) {
    if (Recorder.on) {
      try {
        ThreadStream t = Recorder.stream();
        t.acquire(lockOf(number, t), false, false, site);
      } catch (Throwable e) {
        Recorder.failed(e);
      }
    }
  }

  /** It ends. */
  public static void end(int number, int site) {
    if (Recorder.on) {
      try {
        ThreadStream t = Recorder.stream();
        long lock = lockOf(number, t);
        if (t.holds(lock) > 0) {
          t.release(lock, false, site);
        }
      } catch (Throwable e) {
        Recorder.failed(e);
      }
    }
  }

  /** The class, which is initialized, is used: a static method or a constructor begins. */
  public static void use(int number, int site) {
    if (Recorder.on) {
      try {
        use(Recorder.stream(), number, site);
      } catch (Throwable e) {
        Recorder.failed(e);
      }
    }
  }

  static void use(ThreadStream t, int number, int site) {
    if (number == 0 || !t.usesFirst(number)) {
      return;
    }
    ThreadStream runner;
    synchronized (Initializers.class) {
      runner = runners[number];
    }
    if (runner != null && runner != t) {
      long lock = lockOf(number, runner);
      t.acquire(lock, true, false, site);
      t.release(lock, true, site);
    }
  }
}
