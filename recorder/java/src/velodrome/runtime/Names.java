package velodrome.runtime;

import java.io.IOException;
import java.nio.file.Files;
import java.nio.file.Path;
import java.nio.file.StandardCopyOption;
import java.util.ArrayList;
import java.util.LinkedHashMap;
import java.util.List;
import java.util.Map;
import java.util.concurrent.TimeUnit;

/** The names that go with the trace: of methods, of variables and locks, and lines. */
final class Names {
  /** Shared objects that get names. */
  private static final int OBJECTS_MOST = 1 << 18;

  /** Elements of an array that get names of their own. */
  private static final int ELEMENTS_MOST = 1 << 12;

  /** The address of the first text. */
  private static final long TEXTS = 1L << 36;

  private static final List<Shadow> objects = new ArrayList<>();
  private static final Map<Long, String> variables = new LinkedHashMap<>();
  private static final Map<Integer, Long> textOf = new LinkedHashMap<>();
  private static final Bytes texts = new Bytes();
  private static volatile boolean changed = true;

  private Names() {}

  static void changed() {
    changed = true;
  }

  /** A second thread has touched the object. */
  static void share(Shadow s) {
    synchronized (objects) {
      if (objects.size() < OBJECTS_MOST) {
        objects.add(s);
        changed = true;
      }
    }
  }

  static void variable(long address, String name) {
    synchronized (objects) {
      variables.put(address, name);
      changed = true;
    }
  }

  /** The address of a method's name. */
  static long text(int site) {
    synchronized (objects) {
      Long at = textOf.get(site);
      if (at == null) {
        at = TEXTS + texts.size();
        texts.text(Sites.nameOf(site));
        textOf.put(site, at);
        changed = true;
      }
      return at;
    }
  }

  private static void addObject(Shadow s, Elf elf) {
    elf.variable(s.layout.object(s), s.base, 8);
    for (int slot = 1; slot <= s.layout.slots; slot++) {
      elf.variable(s.layout.field(s, slot), s.address(slot), 8);
    }
    if (s.length > ELEMENTS_MOST) {
      elf.variable(s.layout.elements(s), s.element(0), 8L * s.length);
      return;
    }
    for (int i = 0; i < s.length; i++) {
      elf.variable(s.layout.element(s, i), s.element(i), 8);
    }
  }

  /** Writes what is known by now: the names, and the map that tells velodrome-log of them. */
  static synchronized void write(Path trace) throws IOException {
    if (!changed) {
      return;
    }
    changed = false;
    Path names = Path.of(trace + ".elf");
    Elf elf = new Elf();
    Sites.Method[] methods = Sites.allMethods();
    long end = Sites.endOfCode();
    for (Sites.Method m : methods) {
      elf.function(m.name, Sites.label(m.first), Sites.label(m.first + m.size) - Sites.label(m.first));
    }
    byte[] content;
    int textBytes;
    synchronized (objects) {
      objects.forEach(s -> addObject(s, elf));
      variables.forEach((at, name) -> elf.variable(name, at, 8));
      textBytes = texts.size();
      content = elf.file(methods, end, texts.toByteArray(), TEXTS);
    }
    replace(names, content);
    long time = Files.getLastModifiedTime(names).to(TimeUnit.SECONDS);
    replace(
        Path.of(trace + ".maps"),
        (line(Sites.CODE, end, "r-xp", 0, names)
                + line(TEXTS, TEXTS + textBytes, "r--p", elf.textOffset(), names)
                + line(Addresses.FIRST, Addresses.END, "rw-p", content.length, names)
                + String.format(
                    "build - %d %d %x %s\n", content.length, time, Sites.CODE, names))
            .getBytes());
  }

  private static String line(long low, long high, String rights, long offset, Path file) {
    return String.format("%x-%x %s %08x 00:00 0 %s\n", low, high, rights, offset, file);
  }

  /** The file is there as a whole, or as it was. */
  private static void replace(Path file, byte[] content) throws IOException {
    Path next = Path.of(file + ".new");
    Files.write(next, content);
    Files.move(next, file, StandardCopyOption.REPLACE_EXISTING, StandardCopyOption.ATOMIC_MOVE);
  }
}
