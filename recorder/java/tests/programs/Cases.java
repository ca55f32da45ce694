package cases;

import java.lang.invoke.MethodHandles;
import java.lang.invoke.VarHandle;
import java.util.concurrent.ExecutorService;
import java.util.concurrent.Executors;
import java.util.concurrent.TimeUnit;
import java.util.concurrent.atomic.AtomicBoolean;
import java.util.concurrent.atomic.AtomicInteger;
import java.util.concurrent.atomic.AtomicIntegerArray;
import java.util.concurrent.atomic.AtomicIntegerFieldUpdater;
import java.util.concurrent.atomic.AtomicLong;
import java.util.concurrent.atomic.AtomicLongArray;
import java.util.concurrent.atomic.AtomicLongFieldUpdater;
import java.util.concurrent.atomic.AtomicReference;
import java.util.concurrent.atomic.AtomicReferenceArray;
import java.util.concurrent.atomic.AtomicReferenceFieldUpdater;
import java.util.concurrent.locks.Condition;
import java.util.concurrent.locks.Lock;
import java.util.concurrent.locks.ReadWriteLock;
import java.util.concurrent.locks.ReentrantLock;
import java.util.concurrent.locks.ReentrantReadWriteLock;
import java.util.concurrent.locks.StampedLock;
import velodrome.Atomic;
import velodrome.tests.Turns;

/** Each kind of hook: thread `one` does f, and then main does g. */
public class Cases {
  interface Case {
    void f() throws Exception;

    void g() throws Exception;
  }

  static class Cell {
    int x;
    long wide;
    double real;
    String word;
    volatile int flag;
    static int total;
    static volatile long count;
    final int never = 1;
    private int hidden;
  }

  static class Wide extends Cell {
    int more;
  }

  // ---- memory
  static class InstanceFields implements Case {
    final Cell cell = new Cell();

    public void f() {
      cell.x = 1;
      cell.wide = 2;
      cell.real = 3;
      cell.word = "4";
    }

    public void g() {
      if (cell.x + cell.wide + cell.real != 6 || !cell.word.equals("4") || cell.never != 1) {
        throw new AssertionError();
      }
      cell.x++;
    }
  }

  static class InheritedFields implements Case {
    final Wide cell = new Wide();

    public void f() {
      cell.more = 1;
      cell.x = 2;
    }

    public void g() {
      Cell same = cell;
      same.x = cell.more;
    }
  }

  static class StaticFields implements Case {
    public void f() {
      Cell.total = 1;
      Cell.count = 1L << 40;
    }

    public void g() {
      Wide.total += Wide.count == 1L << 40 ? 1 : 0;
    }
  }

  static class VolatileFields implements Case {
    final Cell cell = new Cell();

    public void f() {
      cell.x = 1;
      cell.flag = 1;
    }

    public void g() {
      if (cell.flag == 1) {
        cell.x = 2;
      }
    }
  }

  static class Elements implements Case {
    final int[] ints = new int[3];
    final long[] longs = new long[2];
    final byte[] bytes = new byte[2];
    final boolean[] bits = new boolean[2];
    final double[][] grid = new double[2][2];
    final Object[] objects = new Object[2];

    public void f() {
      ints[0] = 1;
      longs[1] = 2;
      bytes[0] = 3;
      bits[1] = true;
      grid[1][0] = 4;
      objects[0] = this;
    }

    public void g() {
      long sum = ints[0] + longs[1] + bytes[0] + (bits[1] ? 1 : 0) + (long) grid[1][0];
      if (sum != 11 || objects[0] != this) {
        throw new AssertionError();
      }
    }
  }

  /** What throws is no access, and what was thrown arrives as without the recorder. */
  static class Throwing implements Case {
    final int[] ints = new int[1];
    Cell none;

    public void f() {
      int caught = 0;
      try {
        ints[1] = 1;
      } catch (ArrayIndexOutOfBoundsException e) {
        caught += e.getStackTrace()[0].getMethodName().equals("f") ? 1 : 0;
      }
      try {
        none.x = 1;
      } catch (NullPointerException e) {
        caught++;
      }
      try {
        ((Object[]) new String[1])[0] = this;
      } catch (ArrayStoreException e) {
        caught++;
      }
      ints[0] = caught;
    }

    public void g() {
      if (ints[0] != 3) {
        throw new AssertionError();
      }
    }
  }

  /** Outside of f and g nothing is a block; a repeat in a block is left out. */
  static class Repeats implements Case {
    final Cell cell = new Cell();

    public void f() {
      cell.x++;
      cell.x++;
    }

    public void g() {
      cell.x++;
      cell.x++;
    }
  }

  // ---- monitors
  static class Blocks implements Case {
    int x;

    public void f() {
      synchronized (this) {
        synchronized (this) {
          x = 1;
        }
      }
    }

    public void g() {
      try {
        synchronized (this) {
          x = 2;
          throw new IllegalStateException();
        }
      } catch (IllegalStateException e) {
        x = 3;
      }
    }
  }

  static class Methods implements Case {
    int x;

    public synchronized void f() {
      x = 1;
      again();
    }

    private synchronized void again() {
      x = 2;
    }

    static synchronized void all(Methods m) {
      m.x = 4;
      throw new IllegalStateException();
    }

    public void g() {
      try {
        all(this);
      } catch (IllegalStateException e) {
        synchronized (Methods.class) {
          x = 5;
        }
      }
    }
  }

  static class Waiting implements Case {
    int x;

    public synchronized void f() throws Exception {
      synchronized (this) {
        x = 1;
        wait(1);
        x = 2;
      }
    }

    public void g() throws Exception {
      synchronized (this) {
        wait(0, 1);
      }
      boolean interrupted = false;
      Thread.currentThread().interrupt();
      try {
        synchronized (this) {
          wait();
        }
      } catch (InterruptedException e) {
        interrupted = true;
      }
      x = interrupted ? 3 : 4;
    }
  }

  // ---- threads
  static class Child extends Thread {
    int x;

    Child() {
      super("child");
    }

    @Override
    public void run() {
      x = 1;
    }
  }

  static class Starting implements Case {
    final Child child = new Child();

    public void f() throws Exception {
      child.start();
      child.join(60_000);
      child.x = 2;
    }

    public void g() throws Exception {
      try {
        child.start();
      } catch (IllegalThreadStateException e) {
        child.x = 3;
      }
    }
  }

  /** A thread that is seen to be no more is as one that was joined. */
  static class Polling implements Case {
    final Child child = new Child();

    public void f() {
      child.start();
      while (child.isAlive()) {
        Thread.onSpinWait();
      }
      child.x = 2;
    }

    public void g() {}
  }

  // ---- blocks
  static class Names implements Case {
    int x;
    int y;

    Names() {
      set(0);
    }

    private void set(int to) {
      x = to;
      y = to;
    }

    private void set(String to, int[] other) {
      x = other[0];
      y = to.length();
    }

    private int getter() {
      return x;
    }

    @Atomic
    private int marked() {
      return x;
    }

    public void f() {
      set(1);
      set("two", new int[] {2});
      getter();
    }

    public void g() {
      Runnable r = () -> set(3);
      r.run();
      x = marked();
    }
  }

  static class Leaving implements Case {
    int x;
    int y;

    private void fails() {
      x = 1;
      throw new IllegalStateException();
    }

    private void deep() {
      fails();
      y = 1;
    }

    public void f() {
      try {
        deep();
      } catch (IllegalStateException e) {
        y = 2;
      }
    }

    public void g() {
      x = y;
    }
  }

  // ---- java.util.concurrent
  static class Values implements Case {
    final AtomicInteger number = new AtomicInteger();
    final AtomicLong wide = new AtomicLong();
    final AtomicBoolean bit = new AtomicBoolean();
    final AtomicReference<String> word = new AtomicReference<>();

    public void f() {
      number.set(1);
      wide.getAndAdd(2);
      bit.compareAndSet(true, false);
      word.compareAndSet(null, "word");
    }

    public void g() {
      int sum = number.incrementAndGet() + number.get();
      sum += wide.updateAndGet(x -> x + 1) == 3 ? wide.intValue() : 0;
      sum += bit.getAndSet(true) ? 1 : 0;
      if (sum != 7 || word.compareAndExchange("none", "other") != word.get()) {
        throw new AssertionError(sum);
      }
      word.compareAndExchange(word.get(), "other");
      wide.compareAndExchange(4, 5);
      number.compareAndExchange(2, 3);
    }
  }

  static class ValueArrays implements Case {
    final AtomicIntegerArray numbers = new AtomicIntegerArray(3);
    final AtomicLongArray wides = new AtomicLongArray(new long[] {1, 2});
    final AtomicReferenceArray<String> words = new AtomicReferenceArray<>(2);

    public void f() {
      numbers.set(0, 1);
      wides.getAndIncrement(1);
      words.lazySet(1, "word");
    }

    public void g() {
      int caught = 0;
      try {
        numbers.get(3);
      } catch (IndexOutOfBoundsException e) {
        caught = numbers.get(0);
      }
      if (caught + wides.accumulateAndGet(1, 2, Long::sum) != 6 || words.get(1) == null) {
        throw new AssertionError(caught);
      }
      numbers.compareAndSet(0, 1, 2);
    }
  }

  static class Locks implements Case {
    final ReentrantLock lock = new ReentrantLock();
    int x;

    public void f() {
      lock.lock();
      try {
        lock.lock();
        x = 1;
        lock.unlock();
      } finally {
        lock.unlock();
      }
    }

    public void g() throws Exception {
      Lock same = lock;
      if (same.tryLock()) {
        x = 2;
        same.unlock();
      }
      if (same.tryLock(1, TimeUnit.SECONDS)) {
        x = 3;
        same.unlock();
      }
      try {
        same.unlock();
      } catch (IllegalMonitorStateException e) {
        x = 4;
      }
      same.lockInterruptibly();
      same.unlock();
    }
  }

  static class OwnLock extends ReentrantLock {
    private static final long serialVersionUID = 1;
    int x;

    void twice() {
      lock();
      super.lock();
      x++;
      unlock();
      super.unlock();
    }
  }

  static class Subclasses implements Case {
    final OwnLock lock = new OwnLock();

    public void f() {
      lock.twice();
    }

    public void g() {
      lock.twice();
    }
  }

  static class Shares implements Case {
    final ReadWriteLock both = new ReentrantReadWriteLock();
    final ReentrantReadWriteLock.ReadLock reads = new ReentrantReadWriteLock().readLock();
    int x;

    public void f() {
      both.writeLock().lock();
      x = 1;
      both.writeLock().unlock();
      reads.lock();
      reads.unlock();
    }

    public void g() {
      both.readLock().lock();
      both.readLock().lock();
      int y = x;
      both.readLock().unlock();
      both.readLock().unlock();
      reads.lock();
      reads.unlock();
    }
  }

  static class Stamped implements Case {
    final StampedLock lock = new StampedLock();
    int x;

    public void f() {
      long stamp = lock.writeLock();
      x = 1;
      lock.unlockWrite(stamp);
      if (lock.validate(lock.tryOptimisticRead()) && lock.isReadLocked()) {
        throw new AssertionError();
      }
    }

    public void g() {
      long stamp = lock.readLock();
      int y = x;
      long other = lock.tryWriteLock();
      stamp = lock.tryConvertToWriteLock(stamp);
      x = y + (int) other;
      lock.unlock(stamp);
    }
  }

  static class Conditions implements Case {
    final ReentrantLock lock = new ReentrantLock();
    final Condition ready = lock.newCondition();
    int x;

    public void f() throws Exception {
      lock.lock();
      lock.lock();
      x = 1;
      ready.awaitNanos(1);
      x = 2;
      lock.unlock();
      lock.unlock();
    }

    public void g() throws Exception {
      lock.lock();
      ready.await(1, TimeUnit.MILLISECONDS);
      lock.unlock();
      Thread.currentThread().interrupt();
      lock.lock();
      try {
        ready.await();
      } catch (InterruptedException e) {
        x = 3;
      }
      lock.unlock();
    }
  }

  /** What an executor runs is told of its threads, which nobody is seen to start. */
  static class Pools implements Case {
    final AtomicInteger number = new AtomicInteger();

    private void more() {
      number.getAndIncrement();
    }

    public void f() throws Exception {
      ExecutorService pool = Executors.newSingleThreadExecutor(r -> new Thread(r, "pooled"));
      pool.submit(this::more).get();
      pool.shutdown();
      pool.awaitTermination(60, TimeUnit.SECONDS);
    }

    public void g() {
      more();
    }
  }

  // ---- variables by their handles
  static class Handled implements Case {
    static long total;
    int x;
    final int[] ints = new int[2];
    final VarHandle number;
    final VarHandle sum;
    final VarHandle element = MethodHandles.arrayElementVarHandle(int[].class);

    Handled() throws ReflectiveOperationException {
      number = MethodHandles.lookup().findVarHandle(Handled.class, "x", int.class);
      sum = MethodHandles.lookup().findStaticVarHandle(Handled.class, "total", long.class);
    }

    public void f() {
      number.setVolatile(this, 1);
      sum.getAndAdd(2L);
      element.set(ints, 1, 3);
    }

    public void g() {
      boolean done = number.compareAndSet(this, 1, 2);
      done &= !number.weakCompareAndSetPlain(this, 1, 2);
      long found = (long) sum.compareAndExchange(2L, 4L);
      found += (long) sum.compareAndExchange(2L, 5L);
      element.getAndBitwiseOr(ints, 1, 4);
      try {
        element.get(ints, 2);
      } catch (IndexOutOfBoundsException e) {
        found += (int) element.get(ints, 1);
      }
      if (!done || found != 13 || (int) number.getAcquire(this) != x) {
        throw new AssertionError(found);
      }
    }
  }

  /** Of types that take two words, or are no numbers; what was there is not looked at. */
  static class OddlyHandled implements Case {
    double real;
    String word;
    byte small;
    final VarHandle reals;
    final VarHandle words;
    final VarHandle smalls;

    OddlyHandled() throws ReflectiveOperationException {
      MethodHandles.Lookup lookup = MethodHandles.lookup();
      reals = lookup.unreflectVarHandle(OddlyHandled.class.getDeclaredField("real"));
      words = lookup.findVarHandle(OddlyHandled.class, "word", String.class);
      smalls = lookup.findVarHandle(OddlyHandled.class, "small", byte.class);
    }

    public void f() {
      reals.set(this, 1.0);
      words.compareAndExchange(this, null, "word");
      smalls.setOpaque(this, (byte) 1);
    }

    public void g() {
      double before = (double) reals.compareAndExchange(this, 1.0, 2.0);
      String found = (String) words.compareAndExchange(this, "other", "more");
      byte small = (byte) smalls.compareAndExchange(this, (byte) 2, (byte) 3);
      if (before != 1 || !found.equals("word") || small != 1) {
        throw new AssertionError(before + found + small);
      }
    }
  }

  static class Updaters implements Case {
    volatile int x;
    volatile long wide;
    volatile String word;
    final AtomicIntegerFieldUpdater<Updaters> number =
        AtomicIntegerFieldUpdater.newUpdater(Updaters.class, "x");
    final AtomicLongFieldUpdater<Updaters> wides =
        AtomicLongFieldUpdater.newUpdater(Updaters.class, "wide");
    final AtomicReferenceFieldUpdater<Updaters, String> words =
        AtomicReferenceFieldUpdater.newUpdater(Updaters.class, String.class, "word");

    public void f() {
      number.incrementAndGet(this);
      wides.set(this, 2);
      words.compareAndSet(this, null, "word");
    }

    public void g() {
      boolean done = number.compareAndSet(this, 1, 2) && !number.compareAndSet(this, 1, 3);
      if (!done || wides.updateAndGet(this, n -> n + 1) != 3 || words.get(this) == null) {
        throw new AssertionError();
      }
    }
  }

  // ---- initialization
  static class Holder {
    static final Cell CELL = new Cell();
    final int own = 1;

    static int two() {
      return 2;
    }
  }

  /** Who runs the initializer has it alone, and who comes later shares it once. */
  static class Initializes implements Case {
    public void f() {
      Holder.CELL.x = Holder.two();
    }

    public void g() {
      Holder.CELL.x = Holder.two() + new Holder().own;
    }
  }

  public static void main(String[] arguments) throws Exception {
    for (String name : arguments) {
      Class<?> type = Class.forName("cases.Cases$" + name);
      Case c = (Case) type.getDeclaredConstructor().newInstance();
      Turns.other(c::f);
      c.g();
    }
  }
}
