package velodrome.runtime;

import java.lang.ref.Reference;
import java.lang.ref.ReferenceQueue;

/**
 * The shadows of all objects that hooks have met, by identity. An object that is there is found
 * without a lock.
 */
final class Shadows {
  private static final int SEGMENTS = 64;
  private static final int SEGMENT_SHIFT = 6;
  private static final int FIRST_SIZE = 256;

  /** Sites that have an object in mind. Two that share a place are slower, not wrong. */
  private static final int MET = 1 << 14;

  private static final Shadow[] met = new Shadow[MET];

  private static final Segment[] segments = new Segment[SEGMENTS];

  static {
    for (int i = 0; i < SEGMENTS; i++) {
      segments[i] = new Segment();
    }
  }

  private Shadows() {}

  /** That of the object that the site has in mind; null where it is another one. */
  static Shadow known(Object o, int site) {
    Shadow s = met[site & MET - 1];
    return s != null && s.get() == o ? s : null;
  }

  /** The same, and the site may have this object in mind from here on. */
  static Shadow of(Object o, int site) {
    Shadow s = known(o, site);
    if (s != null) {
      return s;
    }
    s = of(o);
    if (met[site & MET - 1] == null || s.isOftenSought()) {
      met[site & MET - 1] = s;
    }
    return s;
  }

  static Shadow of(Object o) {
    int hash = System.identityHashCode(o);
    return segments[hash & SEGMENTS - 1].of(o, hash);
  }

  private static final class Segment {
    private final ReferenceQueue<Object> gone = new ReferenceQueue<>();
    private volatile Shadow[] table = new Shadow[FIRST_SIZE];
    private int count;

    private static int place(int hash, Shadow[] table) {
      return hash >>> SEGMENT_SHIFT & table.length - 1;
    }

    /** A reader may walk a chain while it changes: it may miss, and never finds a wrong one. */
    private Shadow find(Object o, int hash) {
      Shadow[] all = table;
      for (Shadow s = all[place(hash, all)]; s != null; s = s.next) {
        if (s.hash == hash && s.get() == o) {
          return s;
        }
      }
      return null;
    }

    Shadow of(Object o, int hash) {
      Shadow s = find(o, hash);
      return s != null ? s : ofNew(o, hash);
    }

    private Shadow ofNew(Object o, int hash) {
      Layout layout = Layout.of(o.getClass());
      int length = Places.in(o);
      synchronized (this) {
        removeGone();
        Shadow s = find(o, hash);
        if (s == null) {
          if (count >= table.length) {
            grow();
          }
          s = new Shadow(o, hash, layout, length, gone);
          int at = place(hash, table);
          s.next = table[at];
          table[at] = s;
          count++;
        }
        return s;
      }
    }

    private void grow() {
      Shadow[] old = table;
      Shadow[] next = new Shadow[2 * old.length];
      for (Shadow chain : old) {
        for (Shadow s = chain; s != null; ) {
          Shadow after = s.next;
          int at = place(s.hash, next);
          s.next = next[at];
          next[at] = s;
          s = after;
        }
      }
      table = next;
    }

    private void removeGone() {
      for (Reference<?> r = gone.poll(); r != null; r = gone.poll()) {
        Shadow dead = (Shadow) r;
        int at = place(dead.hash, table);
        Shadow before = null;
        for (Shadow s = table[at]; s != null && s != dead; s = s.next) {
          before = s;
        }
        if (before == null) {
          table[at] = dead.next;
        } else {
          before.next = dead.next;
        }
        count--;
      }
    }
  }
}
