package velodrome.runtime;

import java.util.concurrent.ConcurrentHashMap;
import java.util.concurrent.atomic.AtomicInteger;

/** Where the fields of a class's objects lie among the addresses of an object, and their names. */
final class Layout {
  private static final int UNKNOWN = 0;
  private static final int SEVERAL = -1;

  /** Objects are numbered by the name of their class, whichever loader it is of. */
  private static final ConcurrentHashMap<String, AtomicInteger> numbers =
      new ConcurrentHashMap<>();

  private static final ClassValue<Layout> layouts =
      new ClassValue<>() {
        @Override
        protected Layout computeValue(Class<?> type) {
          return new Layout(type);
        }
      };

  /** How many fields an object has, inherited ones with it. */
  final int slots;

  private final int inherited;
  private final String name;
  private final boolean isClass;
  private final boolean isValue;
  private final Declared declared;
  private final Layout outer;
  private final AtomicInteger count;
  private volatile int site = UNKNOWN;

  private Layout(Class<?> type) {
    Class<?> parent = type.getSuperclass();
    outer = parent == null || type.isArray() ? null : of(parent);
    declared = type.isArray() ? null : Declared.of(type);
    inherited = outer == null ? 0 : outer.slots;
    slots = inherited + (declared == null ? 0 : declared.count());
    name = simpleName(type);
    isClass = type == Class.class;
    isValue = Places.isValue(type);
    count = numbers.computeIfAbsent(name, n -> new AtomicInteger());
  }

  static Layout of(Class<?> type) {
    return layouts.get(type);
  }

  /** The name without its package: `Outer$Inner`, `int[]`. */
  static String simpleName(Class<?> type) {
    int dimensions = 0;
    Class<?> element = type;
    while (element.isArray()) {
      element = element.getComponentType();
      dimensions++;
    }
    String full = element.getName();
    int slash = full.indexOf('/'); // of a hidden class
    String plain = slash < 0 ? full : full.substring(0, slash);
    return plain.substring(plain.lastIndexOf('.') + 1) + "[]".repeat(dimensions);
  }

  boolean isOf(Class<?> type) {
    return name.equals(type.getSimpleName());
  }

  int nextNumber() {
    return count.incrementAndGet();
  }

  void made(int at) {
    int before = site;
    if (before != at && before != SEVERAL) {
      site = before == UNKNOWN ? at : SEVERAL;
    }
  }

  /** The one place that makes objects of this class; 0 where it is not known. */
  int onlySite() {
    return Math.max(site, 0);
  }

  /** The slot of a field that the class or one above it declares; 0 where none is known. */
  int slotOf(String field) {
    for (Layout l = this; l != null; l = l.outer) {
      int index = l.declared == null ? -1 : l.declared.indexOf(field);
      if (index >= 0 && index < l.declared.count()) {
        return 1 + l.inherited + index;
      }
    }
    return 0;
  }

  boolean isVolatile(int slot) {
    Layout l = declaring(slot);
    return l.declared.isVolatile(slot - 1 - l.inherited);
  }

  private Layout declaring(int slot) {
    Layout l = this;
    while (slot <= l.inherited) {
      l = l.outer;
    }
    return l;
  }

  // ---- names
  String object(Shadow s) {
    Object o = isClass ? s.get() : null;
    String made = Sites.place(s.madeAt());
    return isClass && o != null
        ? simpleName((Class<?>) o) + ".class"
        : name + "#" + s.number() + (made.isEmpty() ? "" : " (made at " + made + ")");
  }

  String field(Shadow s, int slot) {
    Layout l = declaring(slot);
    return l.name + "." + l.declared.name(slot - 1 - l.inherited) + " of " + object(s);
  }

  String element(Shadow s, int index) {
    return isValue ? object(s) : "[" + index + "] of " + object(s);
  }

  String elements(Shadow s) {
    return "elements of " + object(s);
  }
}
