package bench;

import java.lang.management.ManagementFactory;
import java.lang.management.ThreadMXBean;
import java.util.LinkedHashMap;
import java.util.Map;

/** Loops over what two threads have each for itself: how much processor time they take. */
public class Costs {
  private static final int THREADS = 2;

  /** Accesses of each thread in each kernel, about. */
  private static final int ACCESSES = 10_000_000;

  /** Of what is run before, so that it is compiled. */
  private static final int FIRST_ACCESSES = ACCESSES / 5;

  private static final int SIZE = 1000;

  private static volatile long sink;

  /** What is here is an object that the compiler cannot do without. */
  private static volatile Object published;

  interface Kernel {
    long run(int accesses);
  }

  // ---- fields of one object
  static class Account {
    long balance;
    int deposits;
    int withdrawals;
  }

  static long fields(int accesses) {
    Account a = new Account();
    published = a;
    for (int i = 0; i < accesses / 4; i++) {
      if ((i & 3) != 0) {
        a.balance += i;
        a.deposits++;
      } else {
        a.balance -= i;
        a.withdrawals++;
      }
    }
    return a.balance;
  }

  // ---- one array
  static long elements(int accesses) {
    int[] all = new int[SIZE];
    for (int i = 0; i < accesses / 2; i++) {
      all[i % SIZE] += i;
    }
    return all[SIZE - 1];
  }

  // ---- several arrays
  static long matrices(int accesses) {
    int size = 100;
    double[][] a = new double[size][size];
    double[][] b = new double[size][size];
    double[][] c = new double[size][size];
    for (int round = 0; round < accesses / (4 * size * size * size); round++) {
      for (int i = 0; i < size; i++) {
        for (int j = 0; j < size; j++) {
          double sum = round;
          for (int k = 0; k < size; k++) {
            sum += a[i][k] * b[k][j];
          }
          c[i][j] = sum;
        }
      }
    }
    return (long) c[1][1];
  }

  // ---- many objects
  static class Node {
    final int key;
    int hits;
    Node left;
    Node right;

    Node(int key) {
      this.key = key;
    }
  }

  static Node find(Node root, int key) {
    Node at = root;
    while (at.key != key) {
      Node next = key < at.key ? at.left : at.right;
      if (next == null) {
        next = new Node(key);
        if (key < at.key) {
          at.left = next;
        } else {
          at.right = next;
        }
      }
      at = next;
    }
    return at;
  }

  static long tree(int accesses) {
    Node root = new Node(SIZE / 2);
    int key = 1;
    for (int i = 0; i < accesses / 16; i++) {
      key = key * 1103515245 + 12345;
      find(root, (key >>> 8) % SIZE).hits++;
    }
    return root.hits;
  }

  static class Entry {
    final String key;
    long value;
    Entry next;

    Entry(String key, Entry next) {
      this.key = key;
      this.next = next;
    }
  }

  static long table(int accesses) {
    String[] words = new String[SIZE];
    for (int i = 0; i < SIZE; i++) {
      words[i] = "word" + i;
    }
    Entry[] all = new Entry[SIZE];
    for (int i = 0; i < accesses / 6; i++) {
      String word = words[i % SIZE];
      int place = Math.floorMod(word.hashCode(), SIZE);
      Entry e = all[place];
      while (e != null && !e.key.equals(word)) {
        e = e.next;
      }
      if (e == null) {
        e = all[place] = new Entry(word, all[place]);
      }
      e.value += i;
    }
    return all[Math.floorMod(words[0].hashCode(), SIZE)].value;
  }

  private static Map<String, Kernel> kernels() {
    Map<String, Kernel> all = new LinkedHashMap<>();
    all.put("fields", Costs::fields);
    all.put("elements", Costs::elements);
    all.put("matrices", Costs::matrices);
    all.put("tree", Costs::tree);
    all.put("table", Costs::table);
    return all;
  }

  /** The nanoseconds of processor time that the kernel takes once it is compiled. */
  private static long measure(Kernel kernel) {
    ThreadMXBean threads = ManagementFactory.getThreadMXBean();
    sink += kernel.run(FIRST_ACCESSES);
    long before = threads.getCurrentThreadCpuTime();
    sink += kernel.run(ACCESSES);
    return threads.getCurrentThreadCpuTime() - before;
  }

  public static void main(String[] arguments) throws Exception {
    for (Map.Entry<String, Kernel> kernel : kernels().entrySet()) {
      long[] nanos = new long[THREADS];
      Thread[] all = new Thread[THREADS];
      for (int i = 0; i < THREADS; i++) {
        int number = i;
        all[i] = new Thread(() -> nanos[number] = measure(kernel.getValue()));
        all[i].start();
      }
      long sum = 0;
      for (int i = 0; i < THREADS; i++) {
        all[i].join();
        sum += nanos[i];
      }
      System.out.println(kernel.getKey() + " " + sum);
    }
  }
}
