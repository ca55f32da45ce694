package velodrome.runtime;

import java.lang.ref.WeakReference;
import java.util.Arrays;

/**
 * Places in the program's code: each has a number, and an address in the trace. A method's are in
 * one piece, the first of which is its entry.
 */
public final class Sites {
  /** The address of the first place. */
  static final long CODE = 0x40_0000;

  /** A place's line stands at its first byte; the trace has the byte behind, as of a call. */
  private static final int BYTES = 2;

  private static final int FIRST_SIZE = 1 << 12;

  /** So many objects that a site makes have its name. */
  private static final int MADE_MOST = 1000;

  private static int count = 1;
  private static int[] lines = new int[FIRST_SIZE];
  private static Method[] methods = new Method[FIRST_SIZE];
  private static Field[] fields = new Field[FIRST_SIZE];

  /** Of an access to a field: slot &lt;&lt; 1, and 1 if it is volatile; 0 not known, -1 none. */
  private static int[] slots = new int[FIRST_SIZE];

  /** Of an access to a static field: its address, and 1 if it is volatile; 0 not known, -1 none. */
  private static long[] statics = new long[FIRST_SIZE];

  /** Of an access to a static field of another class: that class's initializer, or 0. */
  private static int[] initializers = new int[FIRST_SIZE];

  /** A piece of places that belongs to one method. */
  static final class Method {
    final String name;
    final String file;
    final int first;
    final int size;

    Method(String name, String file, int first, int size) {
      this.name = name;
      this.file = file;
      this.first = first;
      this.size = size;
    }
  }

  /** What a site's field is called in the class file. */
  private static final class Field {
    final WeakReference<ClassLoader> loader;
    final String owner;
    final String field;

    Field(ClassLoader loader, String owner, String field) {
      this.loader = new WeakReference<>(loader);
      this.owner = owner;
      this.field = field;
    }
  }

  private Sites() {}

  /**
   * Numbers for a method's places: the first of them.
   *
   * @param name as the method is told
   * @param file of its source, with the folders of its package; null if it is not known
   */
  public static synchronized int reserve(String name, String file, int size) {
    int first = count;
    count += size;
    if (count > lines.length) {
      int room = Math.max(2 * lines.length, count);
      lines = Arrays.copyOf(lines, room);
      methods = Arrays.copyOf(methods, room);
      fields = Arrays.copyOf(fields, room);
      slots = Arrays.copyOf(slots, room);
      statics = Arrays.copyOf(statics, room);
      initializers = Arrays.copyOf(initializers, room);
    }
    methods[first] = new Method(name, file, first, size);
    Names.changed();
    return first;
  }

  public static synchronized void setLine(int site, int line) {
    lines[site] = line;
  }

  /** The site is an access to this field; the loader is that of the class that has the site. */
  public static synchronized void setField(
      int site, ClassLoader loader, String owner, String field) {
    fields[site] = new Field(loader, owner, field);
  }

  static long code(int site) {
    return site == 0 ? 0 : CODE + (long) BYTES * site + 1;
  }

  /** A label is a place whose name tells of something else: its address is its symbol's. */
  static long label(int site) {
    return CODE + (long) BYTES * site;
  }

  static int label(String name) {
    return reserve(name, null, 1);
  }

  // ---- what a site accesses
  static int slot(Object o, int site) {
    int slot = slots[site];
    return slot != 0 ? slot : resolve(o, site);
  }

  /** Likewise; 0 where it is not known yet. */
  static int knownSlot(int site) {
    return slots[site];
  }

  private static int resolve(Object o, int site) {
    Field f = field(site);
    Class<?> type = o.getClass();
    String owner = f.owner.replace('/', '.');
    while (type != null && !type.getName().equals(owner)) {
      type = type.getSuperclass();
    }
    Layout layout = type == null ? null : Layout.of(type);
    int slot = layout == null ? 0 : layout.slotOf(f.field);
    int found = slot == 0 ? -1 : slot << 1 | (layout.isVolatile(slot) ? 1 : 0);
    synchronized (Sites.class) {
      slots[site] = found;
    }
    return found;
  }

  private static synchronized Field field(int site) {
    return fields[site];
  }

  static long staticAddress(int site) {
    long address = statics[site];
    return address != 0 ? address : resolveStatic(site);
  }

  /** The class is initialized already, so that no code of the program runs here. */
  private static long resolveStatic(int site) {
    Field f = field(site);
    long found = -1;
    int initializer = 0;
    try {
      Class<?> type = Class.forName(f.owner.replace('/', '.'), false, f.loader.get());
      found = addressIn(type, f.field);
      initializer = initializerOf(type);
    } catch (ClassNotFoundException | LinkageError e) {
      // It is not recorded.
    }
    synchronized (Sites.class) {
      statics[site] = found;
      initializers[site] = initializer;
    }
    return found;
  }

  private static int initializerOf(Class<?> type) {
    for (Class<?> c = type; c != null; c = c.getSuperclass()) {
      Declared d = Declared.of(c);
      if (d != null && d.initializer != 0) {
        return d.initializer;
      }
    }
    return 0;
  }

  /** The initializer that an access to a static field waits for, once its address is known. */
  static int initializer(int site) {
    return initializers[site];
  }

  /** The address of a static field, and 1 if it is volatile; -1 where it is not recorded. */
  static long addressIn(Class<?> type, String field) {
    for (Class<?> c = type; c != null; c = c.getSuperclass()) {
      Declared d = Declared.of(c);
      int index = d == null ? -1 : d.indexOf(field);
      if (index >= 0) {
        return d.staticAddress(index, c) | (d.isVolatile(index) ? 1 : 0);
      }
      for (Class<?> i : c.getInterfaces()) {
        long address = addressIn(i, field);
        if (address != -1) {
          return address;
        }
      }
    }
    return -1;
  }

  // ---- what a site makes
  /** Whether the object that a site makes now is still among the first ones, which are told. */
  static boolean countMade(int site) {
    int made = slots[site];
    if (made >= MADE_MOST) {
      return false;
    }
    slots[site] = made + 1; // Two at once count as one.
    return true;
  }

  // ---- names
  private static Method methodOf(int site) {
    int i = site;
    while (i > 0 && methods[i] == null) {
      i--;
    }
    return methods[i];
  }

  /** FILE:LINE, without the folders; empty where it is not known. */
  static synchronized String place(int site) {
    Method m = site == 0 ? null : methodOf(site);
    if (m == null || m.file == null) {
      return "";
    }
    return m.file.substring(m.file.lastIndexOf('/') + 1) + ":" + lines[site];
  }

  /** All methods, in the order of their addresses. */
  static synchronized Method[] allMethods() {
    return Arrays.stream(methods, 0, count).filter(m -> m != null).toArray(Method[]::new);
  }

  static synchronized int line(int site) {
    return lines[site];
  }

  static long endOfCode() {
    synchronized (Sites.class) {
      return CODE + (long) BYTES * count;
    }
  }

  /** The address in the trace of a method's name as a string. */
  static long name(int site) {
    return Names.text(site);
  }

  static synchronized String nameOf(int site) {
    return methodOf(site).name;
  }
}
