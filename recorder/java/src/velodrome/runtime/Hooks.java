package velodrome.runtime;

/**
 * What the program's code calls where it accesses memory, holds a monitor, or enters and leaves a
 * method. None throws, and none runs code of the program.
 */
public final class Hooks {
  private Hooks() {}

  // ---- accesses. Each hook gives what `done` takes behind the access; null if there is no need.
  // What is often so stands in the hook itself, so that it can be compiled into the program.
  /** The field of this object is read next. */
  public static Object read(Object o, int site) {
    if (!Recorder.on || o == null) {
      return null;
    }
    Shadow s = Shadows.known(o, site);
    boolean covers = s != null && s.surelyCoversField(Sites.knownSlot(site), false);
    return covers ? null : field(o, site, false);
  }

  /** The field of this object is written next. */
  public static Object write(Object o, int site) {
    if (!Recorder.on || o == null) {
      return null;
    }
    Shadow s = Shadows.known(o, site);
    boolean covers = s != null && s.surelyCoversField(Sites.knownSlot(site), true);
    return covers ? null : field(o, site, true);
  }

  private static Object field(Object o, int site, boolean write) {
    try {
      int slot = Sites.slot(o, site);
      if (slot < 0) {
        return null;
      }
      Shadow s = Shadows.of(o, site);
      ThreadStream t = s.stream();
      if ((slot & 1) != 0) {
        s.touch(t);
        return t.atomic(!write, write, s.address(slot >> 1), site);
      }
      return s.coversField(t, slot >> 1, write)
          ? null
          : t.access(write, s.address(slot >> 1), site);
    } catch (Throwable e) {
      return Recorder.failed(e);
    }
  }

  /** A static field is read next. */
  public static Object readStatic(int site) {
    return Recorder.on ? staticField(site, false) : null;
  }

  /** A static field is written next. */
  public static Object writeStatic(int site) {
    return Recorder.on ? staticField(site, true) : null;
  }

  private static Object staticField(int site, boolean write) {
    try {
      long address = Sites.staticAddress(site);
      int initializer = Sites.initializer(site);
      if (address < 0 && initializer == 0) {
        return null;
      }
      ThreadStream t = Recorder.stream();
      Initializers.use(t, initializer, site);
      if (address < 0) {
        return null;
      }
      return (address & 1) != 0
          ? t.atomic(!write, write, address & -8, site)
          : t.access(write, address, site);
    } catch (Throwable e) {
      return Recorder.failed(e);
    }
  }

  /** The element of this array is read next. */
  public static Object readElement(Object array, int index, int site) {
    if (!Recorder.on || array == null) {
      return null;
    }
    Shadow s = Shadows.known(array, site);
    boolean covers = s != null && s.surelyCoversElement(index, false);
    return covers ? null : element(array, index, site, false);
  }

  /** The element of this array is written next. */
  public static Object writeElement(Object array, int index, int site) {
    if (!Recorder.on || array == null) {
      return null;
    }
    Shadow s = Shadows.known(array, site);
    boolean covers = s != null && s.surelyCoversElement(index, true);
    return covers ? null : element(array, index, site, true);
  }

  private static Object element(Object array, int index, int site, boolean write) {
    try {
      Shadow s = Shadows.of(array, site);
      if (index < 0 || index >= s.length) {
        return null;
      }
      ThreadStream t = s.stream();
      return s.coversElement(t, index, write) ? null : t.access(write, s.element(index), site);
    } catch (Throwable e) {
      return Recorder.failed(e);
    }
  }

  /** The access is done. */
  public static void done(Object held) {
    if (held != null) {
      try {
        ((ThreadStream) held).settle();
      } catch (Throwable e) {
        Recorder.failed(e);
      }
    }
  }

  // ---- objects
  /** A constructor has this object before it does anything with it. */
  public static void making(Object o) {
    if (Recorder.on) {
      try {
        ThreadStream t = Recorder.stream();
        if (t.outermost != 0) {
          Shadows.of(o).made(t);
        }
      } catch (Throwable e) {
        Recorder.failed(e);
      }
    }
  }

  /** An object was made here. */
  public static void made(Object o, int site) {
    if (Recorder.on && Sites.countMade(site)) {
      try {
        Shadows.of(o).setMadeAt(site);
      } catch (Throwable e) {
        Recorder.failed(e);
      }
    }
  }

  // ---- monitors
  /** The monitor is asked for next. */
  public static void acquiring(Object o, int site) {
    if (Recorder.on && o != null && !Thread.holdsLock(o)) {
      try {
        ThreadStream t = Recorder.stream();
        Shadow s = Shadows.of(o);
        if (s.isHeld()) {
          t.contended(s.base, Kind.FOR_MUTEX, false, site);
        }
      } catch (Throwable e) {
        Recorder.failed(e);
      }
    }
  }

  /** The monitor was acquired. */
  public static void acquired(Object o, int site) {
    if (Recorder.on) {
      try {
        ThreadStream t = Recorder.stream();
        Shadow s = Shadows.of(o);
        s.touch(t);
        t.acquire(s.base, false, false, site);
        s.setHeld(true);
      } catch (Throwable e) {
        Recorder.failed(e);
      }
    }
  }

  /** The monitor is released next. */
  public static void releasing(Object o, int site) {
    if (Recorder.on && o != null && Thread.holdsLock(o)) {
      try {
        ThreadStream t = Recorder.stream();
        Shadow s = Shadows.of(o);
        t.release(s.base, false, site);
        s.setHeld(t.holds(s.base) > 0);
      } catch (Throwable e) {
        Recorder.failed(e);
      }
    }
  }

  /** A synchronized method begins: it has the monitor. */
  public static void enter(Object o, int site) {
    if (Recorder.on) {
      try {
        ThreadStream t = Recorder.stream();
        Shadow s = Shadows.of(o);
        s.touch(t);
        t.enter(s, site);
        s.setHeld(true);
      } catch (Throwable e) {
        Recorder.failed(e);
      }
    }
  }

  /** It ends: the monitor is released next. */
  public static void exit(int site) {
    if (Recorder.on) {
      try {
        Recorder.stream().exit(site);
      } catch (Throwable e) {
        Recorder.failed(e);
      }
    }
  }

  // ---- blocks
  /** A method begins that is a block: by its entry, or minus that if it is `@Atomic`. */
  public static void open(int function) {
    if (Recorder.on) {
      try {
        Recorder.stream().open(function);
      } catch (Throwable e) {
        Recorder.failed(e);
      }
    }
  }

  /** It ends. */
  public static void close() {
    if (Recorder.on) {
      try {
        Recorder.stream().close();
      } catch (Throwable e) {
        Recorder.failed(e);
      }
    }
  }
}
