package velodrome.runtime;

import java.lang.invoke.MethodType;
import java.lang.reflect.Field;

/** What stands beside variable handles and field updaters: which variable each of them is for. */
public final class Handles {
  /** The variables that a handle is for. */
  static final class Variables {
    private static final Variables ELEMENTS = new Variables(0, 0);

    /** Of a field of objects: its slot. */
    final int slot;

    /** Of a static field: its address. */
    final long address;

    private Variables(int slot, long address) {
      this.slot = slot;
      this.address = address;
    }
  }

  private Handles() {}

  // ---- what a handle is for
  /** The handle was asked for by this field of a class. */
  public static void forField(Object handle, Class<?> owner, String name, Class<?> type) {
    if (Recorder.on) {
      try {
        String field = name + ":" + MethodType.methodType(type).toMethodDescriptorString();
        Variables of = variables(owner, field.replace("()", ""));
        if (of != null) {
          Shadows.of(handle).setVariables(of);
        }
      } catch (Throwable e) {
        Recorder.failed(e);
      }
    }
  }

  /** Likewise. */
  public static void forField(Object handle, Field field) {
    forField(handle, field.getDeclaringClass(), field.getName(), field.getType());
  }

  /** Likewise: an updater of references. */
  public static void forField(Object updater, Class<?> owner, Class<?> type, String name) {
    forField(updater, owner, name, type);
  }

  /** Likewise: an updater of numbers. */
  public static void forField(Object updater, Class<?> owner, String name) {
    boolean isLong = updater instanceof java.util.concurrent.atomic.AtomicLongFieldUpdater;
    forField(updater, owner, name, isLong ? long.class : int.class);
  }

  /** The handle was asked for by a class of arrays. */
  public static void forElements(Object handle, Class<?> type) {
    if (Recorder.on) {
      try {
        Shadows.of(handle).setVariables(Variables.ELEMENTS);
      } catch (Throwable e) {
        Recorder.failed(e);
      }
    }
  }

  /** Null where the field is none that is recorded. */
  private static Variables variables(Class<?> owner, String field) {
    int slot = Layout.of(owner).slotOf(field);
    if (slot > 0) {
      return new Variables(slot, 0);
    }
    long address = Sites.addressIn(owner, field);
    return address < 0 ? null : new Variables(0, address & -8);
  }

  // ---- accesses
  /**
   * The variable of this handle is accessed next.
   *
   * @param first the first argument behind the handle; null where it is no object
   * @param second the second one; -1 where it is no number
   */
  public static void before(Object handle, Object first, int second) {
    if (Recorder.on && handle != null) {
      try {
        Recorder.stream().holdAtomic(address(Shadows.of(handle).variables(), first, second));
      } catch (Throwable e) {
        Recorder.failed(e);
      }
    }
  }

  /** 0 where nothing is known of it, or the access will throw. */
  private static long address(Variables of, Object o, int index) {
    if (of == null || of.address != 0) {
      return of == null ? 0 : of.address;
    }
    if (o == null) {
      return 0;
    }
    Shadow s = Shadows.of(o);
    s.touch(Recorder.stream());
    if (of.slot > 0) {
      return of.slot <= s.layout.slots ? s.address(of.slot) : 0;
    }
    return index < 0 || index >= s.length ? 0 : s.element(index);
  }
}
