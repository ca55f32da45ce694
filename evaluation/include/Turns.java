package velodrome.tests;

/** In the place of the class that steers the threads of the recorder's tests: it steers nothing. */
public final class Turns {
  private Turns() {}

  /** Where another thread may come in. */
  public static void give(int turn) {}

  /** Does this now. */
  public static void take(int turn, Runnable task) {
    task.run();
  }
}
