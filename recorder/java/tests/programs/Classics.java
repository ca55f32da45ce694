package cases;

import copied.Vector;
import java.lang.reflect.Constructor;
import java.util.Collection;
import java.util.List;
import velodrome.tests.Turns;

/** The known mistakes of the JDK's own classes, in copies that the recorder looks at. */
public class Classics {
  static boolean repaired;

  /** The comparison lets another thread in. */
  static class Key {
    final int turn;

    Key(int turn) {
      this.turn = turn;
    }

    @Override
    public boolean equals(Object o) {
      Turns.give(turn);
      return o == this;
    }

    @Override
    public int hashCode() {
      return turn;
    }
  }

  /** As java.lang.StringBuffer: the length of the other text is asked for before its chars. */
  static class StringBuffer {
    private char[] value = new char[16];
    private int count;

    StringBuffer(String s) {
      s.getChars(0, s.length(), value, 0);
      count = s.length();
    }

    synchronized int length() {
      return count;
    }

    synchronized void setLength(int to) {
      count = to;
    }

    synchronized void getChars(int from, int to, char[] into, int at) {
      if (to > count) {
        throw new StringIndexOutOfBoundsException(to);
      }
      System.arraycopy(value, from, into, at, to - from);
    }

    synchronized StringBuffer append(StringBuffer other) {
      int more = other.length();
      Turns.give(0);
      other.getChars(0, more, value, count);
      count += more;
      return this;
    }
  }

  /** As java.util.Vector(Collection) of Java 1.4: the size is asked for before the elements. */
  static Object[] elements(Vector<Key> of) {
    Object[] all = new Object[of.size()];
    Turns.give(3);
    return of.toArray(all);
  }

  static void guarded(Object lock, Runnable body) {
    if (repaired) {
      synchronized (lock) {
        body.run();
      }
    } else {
      body.run();
    }
  }

  static void with(int turn, Runnable first, Runnable second) throws Exception {
    Thread other = new Thread(() -> Turns.take(turn, second), "other");
    other.start();
    first.run();
    other.join();
  }

  private static Vector<Key> keys(int turn) {
    Vector<Key> all = new Vector<>();
    all.add(new Key(turn));
    all.add(new Key(turn));
    return all;
  }

  private static void change(Vector<Key> all) {
    all.set(0, all.get(1));
    all.set(1, all.get(0));
  }

  @SuppressWarnings("unchecked")
  private static List<Key> synchronizedList(List<Key> list) throws Exception {
    Class<?> type = Class.forName("copied.Collections$SynchronizedList");
    Constructor<?> constructor = type.getDeclaredConstructor(List.class);
    constructor.setAccessible(true);
    return (List<Key>) constructor.newInstance(list);
  }

  private static void ask(Collection<Key> all, Vector<Key> other, int turn) throws Exception {
    with(turn, () -> guarded(other, () -> all.containsAll(other)), () -> change(other));
  }

  public static void main(String[] arguments) throws Exception {
    repaired = arguments[0].equals("repaired");
    StringBuffer text = new StringBuffer("text");
    with(
        0,
        () ->
            guarded(
                text,
                () -> {
                  try {
                    new StringBuffer("more ").append(text);
                  } catch (StringIndexOutOfBoundsException e) {
                    System.out.println("found");
                  }
                }),
        () -> text.setLength(0));
    Vector<Key> first = keys(1);
    ask(new Vector<>(first), first, 1);
    Vector<Key> second = keys(2);
    ask(synchronizedList(new Vector<>(second)), second, 2);
    Vector<Key> third = keys(4);
    with(3, () -> guarded(third, () -> elements(third)), () -> third.add(new Key(4)));
  }
}
