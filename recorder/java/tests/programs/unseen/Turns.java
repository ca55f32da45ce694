package velodrome.tests;

import java.util.concurrent.CountDownLatch;
import java.util.concurrent.ExecutionException;
import java.util.concurrent.ExecutorService;
import java.util.concurrent.Executors;
import java.util.concurrent.TimeUnit;

/** Steers the threads of a test, so that they meet each time. The recorder does not see it. */
public final class Turns {
  private static final long SECONDS_MOST = 100;
  private static final ExecutorService other =
      Executors.newSingleThreadExecutor(
          task -> {
            Thread t = new Thread(task, "one");
            t.setDaemon(true);
            return t;
          });

  private static final CountDownLatch[] steps = latches();

  private Turns() {}

  /** What may throw. */
  public interface Task {
    void run() throws Exception;
  }

  /** Thread `one` does this, while the caller waits. */
  public static void other(Task task) throws Exception {
    try {
      other
          .submit(
              () -> {
                task.run();
                return null;
              })
          .get(SECONDS_MOST, TimeUnit.SECONDS);
    } catch (ExecutionException e) {
      throw new IllegalStateException(e.getCause());
    }
  }

  /** This step is done. */
  public static void done(int step) {
    steps[step].countDown();
  }

  /** Waits until the step is done. */
  public static void await(int step) {
    await(steps[step]);
  }

  private static void await(CountDownLatch latch) {
    try {
      if (!latch.await(SECONDS_MOST, TimeUnit.SECONDS)) {
        throw new IllegalStateException("nobody came");
      }
    } catch (InterruptedException e) {
      throw new IllegalStateException(e);
    }
  }

  // ---- one thread in the middle of another's method
  private static final CountDownLatch[] given = latches();
  private static final CountDownLatch[] taken = latches();
  private static final CountDownLatch[] over = latches();
  private static volatile Thread taker;

  private static CountDownLatch[] latches() {
    CountDownLatch[] all = new CountDownLatch[64];
    for (int i = 0; i < all.length; i++) {
      all[i] = new CountDownLatch(1);
    }
    return all;
  }

  /** The other thread does what it has to do now, as far as it comes: it may wait for a lock. */
  public static void give(int turn) {
    if (given[turn].getCount() == 0) {
      return; // a second try in one turn
    }
    given[turn].countDown();
    await(taken[turn]);
    while (over[turn].getCount() > 0 && !isWaiting(taker)) {
      Thread.onSpinWait();
    }
  }

  private static boolean isWaiting(Thread t) {
    return t.getState() == Thread.State.BLOCKED || t.getState() == Thread.State.WAITING;
  }

  /** Waits for the turn, does this, and ends the turn. */
  public static void take(int turn, Runnable task) {
    await(given[turn]);
    taker = Thread.currentThread();
    taken[turn].countDown();
    task.run();
    over[turn].countDown();
  }
}
