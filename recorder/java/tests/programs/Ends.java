package cases;

import java.io.IOException;
import java.io.InputStream;
import java.util.ArrayList;
import java.util.List;
import velodrome.tests.Turns;

/** Programs that end in one way or another, or are told in words. */
public class Ends {
  static int shared;

  static class Account {
    int balance;
  }

  static void touch() {
    synchronized (Ends.class) {
      shared++;
    }
  }

  static Thread start(Runnable r, String name) {
    Thread t = new Thread(r, name);
    t.start();
    return t;
  }

  static void two() throws Exception {
    start(Ends::touch, "two").join();
    touch();
  }

  /** One thread after the other, and more of them at a time than a log has numbers for. */
  static void many() throws Exception {
    for (int round = 0; round < 3; round++) {
      List<Thread> all = new ArrayList<>();
      for (int i = 0; i < 40; i++) {
        all.add(start(Ends::touch, "t" + i));
      }
      for (Thread t : all) {
        t.join();
      }
    }
  }

  static void names() throws Exception {
    Account[] all = {new Account(), new Account()};
    Thread t = start(() -> all[1].balance = 1, "the other one");
    t.join();
    all[1].balance = 2;
    System.out.println(all.length);
  }

  /** Two locks in two orders: both threads wait for ever. */
  static void deadlock() throws Exception {
    Object a = new Object();
    Object b = new Object();
    Thread first = start(() -> both(a, b, 0, 1), "first");
    Thread second = start(() -> both(b, a, 1, 0), "second");
    while (first.getState() != Thread.State.BLOCKED || second.getState() != Thread.State.BLOCKED) {
      Thread.onSpinWait();
    }
    Runtime.getRuntime().halt(7);
  }

  private static void both(Object a, Object b, int own, int other) {
    synchronized (a) {
      Turns.done(own);
      Turns.await(other);
      synchronized (b) {
        shared++;
      }
    }
  }

  /** A loader that knows nothing but the JDK and what it defines. */
  static class Hiding extends ClassLoader {
    Hiding() {
      super(null);
    }

    @Override
    protected Class<?> loadClass(String name, boolean resolve) throws ClassNotFoundException {
      if (name.startsWith("velodrome")) {
        throw new ClassNotFoundException(name);
      }
      return super.loadClass(name, resolve);
    }

    @Override
    protected Class<?> findClass(String name) throws ClassNotFoundException {
      String file = "/" + name.replace('.', '/') + ".class";
      try (InputStream in = Ends.class.getResourceAsStream(file)) {
        byte[] bytes = in.readAllBytes();
        return defineClass(name, bytes, 0, bytes.length);
      } catch (IOException e) {
        throw new ClassNotFoundException(name, e);
      }
    }
  }

  /** What is defined by such a loader. */
  public static class Hidden implements Runnable {
    private int x;

    @Override
    public void run() {
      x++;
      System.out.println("hidden " + x);
    }
  }

  static void hiding() throws Exception {
    Class<?> type = new Hiding().loadClass("cases.Ends$Hidden");
    ((Runnable) type.getDeclaredConstructor().newInstance()).run();
    two();
  }

  /** All that a thread's class can say itself, which no hook may ask for. */
  static class Own extends Thread {
    private boolean asked;

    /** Only the second call starts it. */
    @Override
    public void start() {
      if (asked) {
        super.start();
      }
      asked = true;
    }

    @Override
    public void run() {
      touch();
    }

    @Override
    public State getState() {
      throw new IllegalStateException();
    }

    @Override
    public long getId() {
      throw new IllegalStateException();
    }

    @Override
    public String toString() {
      throw new IllegalStateException();
    }

    @Override
    public int hashCode() {
      throw new IllegalStateException();
    }

    @Override
    public boolean equals(Object other) {
      throw new IllegalStateException();
    }

    @Override
    public boolean isInterrupted() {
      throw new IllegalStateException();
    }

    @Override
    public void interrupt() {
      throw new IllegalStateException();
    }
  }

  static void own() throws Exception {
    Thread t = new Own();
    t.start();
    if (!t.isAlive()) {
      t.start();
    }
    t.join();
    touch();
    synchronized (t) {
      shared++;
    }
  }

  static void work(int times) {
    for (int i = 0; i < times; i++) {
      touch();
    }
  }

  public static void main(String[] arguments) throws Exception {
    switch (arguments[0]) {
      case "two":
        two();
        break;
      case "many":
        many();
        break;
      case "hiding":
        hiding();
        break;
      case "own":
        own();
        break;
      case "interrupted":
        two();
        Thread.currentThread().interrupt();
        work(100_000);
        System.out.println(Thread.interrupted());
        break;
      case "names":
        names();
        break;
      case "deadlock":
        deadlock();
        break;
      case "exit":
        two();
        System.exit(5);
        break;
      case "halt":
        two();
        Runtime.getRuntime().halt(6);
        break;
      case "throw":
        two();
        throw new IllegalStateException("as it was");
      case "hang":
        two();
        System.out.println("up");
        Thread.sleep(600_000);
        break;
      default:
        work(1_000_000);
        System.out.println(shared);
    }
  }
}
