package cases;

import java.util.concurrent.atomic.AtomicInteger;
import java.util.concurrent.locks.ReentrantLock;
import java.util.concurrent.locks.ReentrantReadWriteLock;
import velodrome.tests.Turns;

/** Methods that are not atomic, and with the argument `repaired` what makes them so. */
public class Mistakes {
  static boolean repaired;

  /** One thread is in the middle of first() when another does all of second(). */
  abstract static class Mistake {
    final int turn;

    Mistake(int turn) {
      this.turn = turn;
    }

    abstract void first();

    abstract void second();

    void meet() {
      Turns.give(turn);
    }
  }

  static void guarded(Object lock, Runnable body) {
    if (repaired) {
      synchronized (lock) {
        body.run();
      }
    } else {
      body.run();
    }
  }

  static void run(Mistake m) throws Exception {
    Thread other = new Thread(() -> Turns.take(m.turn, m::second), "other");
    other.start();
    m.first();
    other.join();
  }

  /** A value is read under one hold of the monitor and written under the next. */
  static class Counter extends Mistake {
    private int n;

    Counter(int turn) {
      super(turn);
    }

    synchronized int get() {
      return n;
    }

    synchronized void set(int to) {
      n = to;
    }

    void increment() {
      guarded(
          this,
          () -> {
            int before = get();
            meet();
            set(before + 1);
          });
    }

    void first() {
      increment();
    }

    void second() {
      guarded(this, () -> set(get() + 1));
    }
  }

  /** Both threads find nothing and make one. */
  static class Lazy extends Mistake {
    private volatile Object value;

    Lazy(int turn) {
      super(turn);
    }

    Object get() {
      Object[] got = new Object[1];
      guarded(
          this,
          () -> {
            if (value == null) {
              meet();
              value = new Object();
            }
            got[0] = value;
          });
      return got[0];
    }

    void first() {
      get();
    }

    void second() {
      guarded(this, () -> value = this);
    }
  }

  /** Money is on its way between two accounts that are each guarded. */
  static class Bank extends Mistake {
    static class Account {
      private int balance = 100;

      synchronized void add(int amount) {
        balance += amount;
      }

      synchronized int get() {
        return balance;
      }
    }

    final Account from = new Account();
    final Account to = new Account();

    Bank(int turn) {
      super(turn);
    }

    void transfer() {
      guarded(
          this,
          () -> {
            from.add(-10);
            meet();
            to.add(10);
          });
    }

    void first() {
      transfer();
    }

    void second() {
      guarded(this, () -> from.add(to.get()));
    }
  }

  /** Two values belong together, and each is volatile. */
  static class Range extends Mistake {
    private volatile int low;
    private volatile int high;
    private volatile int[] both;
    private volatile int width;

    Range(int turn) {
      super(turn);
    }

    void set() {
      if (repaired) {
        int[] next = {5, 6};
        meet();
        both = next;
      } else {
        low = 5;
        meet();
        high = 6;
      }
    }

    void first() {
      set();
    }

    void second() {
      if (repaired) {
        int[] now = both;
        width = now == null ? 0 : now[1] - now[0];
      } else {
        width = high - low;
      }
    }
  }

  /** An atomic value is looked at, and then changed. */
  static class Tickets extends Mistake {
    private final AtomicInteger left = new AtomicInteger(10);

    Tickets(int turn) {
      super(turn);
    }

    void sell() {
      if (!repaired) {
        if (left.get() > 0) {
          meet();
          left.decrementAndGet();
        }
        return;
      }
      int before;
      do {
        before = left.get();
        meet();
      } while (!left.compareAndSet(before, before - 1));
    }

    void first() {
      sell();
    }

    void second() {
      left.decrementAndGet();
    }
  }

  /** A share of a lock is given back before the lock is taken alone. */
  static class Cache extends Mistake {
    private final ReentrantReadWriteLock lock = new ReentrantReadWriteLock();
    private int version;

    Cache(int turn) {
      super(turn);
    }

    void refresh() {
      if (repaired) {
        lock.writeLock().lock();
      } else {
        lock.readLock().lock();
      }
      int old = version;
      if (!repaired) {
        lock.readLock().unlock();
      }
      meet();
      if (!repaired) {
        lock.writeLock().lock();
      }
      version = old + 1;
      lock.writeLock().unlock();
    }

    void first() {
      refresh();
    }

    void second() {
      lock.writeLock().lock();
      version++;
      lock.writeLock().unlock();
    }
  }

  /** There is something on the stack, and then there is not. */
  static class Stack extends Mistake {
    private final ReentrantLock lock = new ReentrantLock();
    private final int[] items = {1, 2, 3};
    private int size = 3;

    Stack(int turn) {
      super(turn);
    }

    boolean isEmpty() {
      lock.lock();
      try {
        return size == 0;
      } finally {
        lock.unlock();
      }
    }

    int pop() {
      lock.lock();
      try {
        return items[--size];
      } finally {
        lock.unlock();
      }
    }

    void popIfAny() {
      if (repaired) {
        lock.lock();
      }
      if (!isEmpty()) {
        meet();
        pop();
      }
      if (repaired) {
        lock.unlock();
      }
    }

    void first() {
      popIfAny();
    }

    void second() {
      pop();
    }
  }

  /** A static flag says that somebody has begun. */
  static class Once extends Mistake {
    private static boolean begun;
    private static int times;

    Once(int turn) {
      super(turn);
    }

    void begin() {
      guarded(
          Once.class,
          () -> {
            if (!begun) {
              meet();
              begun = true;
              times++;
            }
          });
    }

    void first() {
      begin();
    }

    void second() {
      guarded(
          Once.class,
          () -> {
            begun = true;
            times++;
          });
    }
  }

  public static void main(String[] arguments) throws Exception {
    repaired = arguments[0].equals("repaired");
    run(new Counter(0));
    run(new Lazy(1));
    run(new Bank(2));
    run(new Range(3));
    run(new Tickets(4));
    run(new Cache(5));
    run(new Stack(6));
    run(new Once(7));
  }
}
