package velodrome.runtime;

import java.lang.ref.WeakReference;
import java.lang.reflect.Modifier;
import java.util.HashMap;
import java.util.List;
import java.util.Map;
import java.util.stream.IntStream;

/** The fields that a class declares, as they stood in its file when it was given hooks. */
public final class Declared {
  private static final Map<String, Declared> byName = new HashMap<>();

  private final WeakReference<ClassLoader> loader;
  private final List<String> names;
  private final int[] access;
  private final Declared next;
  private final long[] statics;
  private final int instances;

  /** The number of the class's initializer; 0 where it has none. */
  final int initializer;

  private Declared(
      ClassLoader loader, List<String> names, int[] access, int initializer, Declared next) {
    this.loader = new WeakReference<>(loader);
    this.names = List.copyOf(names);
    this.access = access.clone();
    this.initializer = initializer;
    this.next = next;
    this.statics = new long[access.length];
    this.instances =
        (int) IntStream.of(access).filter(flags -> !Modifier.isStatic(flags)).count();
  }

  /**
   * Notes a class by its internal name.
   *
   * @param names of its fields, each as `name:descriptor`
   * @param initializer its number, or 0
   */
  public static void note(
      ClassLoader loader, String type, List<String> names, int[] access, int initializer) {
    synchronized (byName) {
      byName.put(type, new Declared(loader, names, access, initializer, byName.get(type)));
    }
  }

  /** The class of this internal name that this loader defined; null where none was noted. */
  public static Declared find(ClassLoader loader, String type) {
    synchronized (byName) {
      for (Declared d = byName.get(type); d != null; d = d.next) {
        if (d.loader.get() == loader) {
          return d;
        }
      }
      return null;
    }
  }

  static Declared of(Class<?> type) {
    return find(type.getClassLoader(), type.getName().replace('.', '/'));
  }

  /** How many of the fields are an object's: they are the first ones. */
  int count() {
    return instances;
  }

  /** The field's number, or -1. */
  public int indexOf(String field) {
    return names.indexOf(field);
  }

  /** The modifiers of a field. */
  public int access(int index) {
    return access[index];
  }

  boolean isVolatile(int index) {
    return Modifier.isVolatile(access[index]);
  }

  String name(int index) {
    String field = names.get(index);
    return field.substring(0, field.indexOf(':'));
  }

  /** The address of a static field. */
  synchronized long staticAddress(int index, Class<?> type) {
    if (statics[index] == 0) {
      statics[index] = Addresses.take(1);
      Names.variable(statics[index], Layout.simpleName(type) + "." + name(index));
    }
    return statics[index];
  }
}
