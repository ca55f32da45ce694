package velodrome.runtime;

import java.lang.ref.ReferenceQueue;
import java.lang.ref.WeakReference;

/**
 * What the recorder knows of an object: its addresses in the trace, and which accesses add nothing
 * since no other thread has touched it yet. It does not keep the object.
 */
final class Shadow extends WeakReference<Object> {
  private static final int FIELD_BITS = 64;
  private static final int ELEMENTS_MOST = 1 << 20;

  /** A site takes one in so many of the objects that it has to look for: a store is not cheap. */
  private static final int SOUGHT = 16;

  final int hash;
  final Layout layout;

  /** The address of the object as a lock. Its fields or elements follow, each of 8 bytes. */
  final long base;

  /** How many elements it has, or values that change atomically. */
  final int length;

  /** In the chain of its place in {@link Shadows}. */
  Shadow next;

  private int sought;
  private volatile int number;
  private boolean isNamed;
  private int madeAt;

  /** As a lock: some thread has it. */
  private volatile boolean held;

  private volatile Shadow whole;

  /** Of a variable handle or a field updater. */
  private volatile Handles.Variables variables;

  /** Of a thread: what it writes. */
  volatile ThreadStream ofThread;

  // ---- while one thread alone has touched it
  private ThreadStream owner;
  private boolean shared;
  private long madeIn;
  private long position;
  private long reads;
  private long writes;
  private long[] elements;

  Shadow(Object o, int hash, Layout layout, int length, ReferenceQueue<Object> queue) {
    super(o, queue);
    this.hash = hash;
    this.layout = layout;
    this.length = length;
    this.base = Addresses.take(1L + layout.slots + length);
  }

  long address(int slot) {
    return base + 8L * slot;
  }

  long element(int index) {
    return address(1 + layout.slots + index);
  }

  boolean isOftenSought() {
    return (++sought & SOUGHT - 1) == 0;
  }

  int madeAt() {
    return madeAt != 0 ? madeAt : layout.onlySite();
  }

  void setMadeAt(int site) {
    madeAt = site;
    layout.made(site);
  }

  /** It has its number among those of its class once somebody asks for it. */
  synchronized int number() {
    if (number == 0) {
      number = layout.nextNumber();
    }
    return number;
  }

  /** The lock that this one belongs to, or null. */
  Shadow whole() {
    return whole;
  }

  void setWhole(Shadow lock) {
    whole = lock;
  }

  /** What a handle is for; null where that is not known. */
  Handles.Variables variables() {
    return variables;
  }

  void setVariables(Handles.Variables of) {
    variables = of;
  }

  boolean isHeld() {
    return held;
  }

  void setHeld(boolean is) {
    held = is;
    if (is && !isNamed) {
      name();
    }
  }

  private synchronized void name() {
    if (!isNamed) {
      isNamed = true;
      number();
      Names.share(this);
    }
  }

  /** The thread makes it in the block that is open. */
  void made(ThreadStream t) {
    if (touch(t)) {
      madeIn = t.outermost;
    }
  }

  /** What the current thread writes: it is at hand where that thread was the first one here. */
  ThreadStream stream() {
    ThreadStream first = owner;
    return first != null && first.thread == Thread.currentThread() ? first : Recorder.stream();
  }

  /** Whether this thread alone has touched it. */
  boolean touch(ThreadStream t) {
    return owner == t && !shared || meet(t);
  }

  private synchronized boolean meet(ThreadStream t) {
    if (owner == null) {
      owner = t;
      return true;
    }
    if (owner != t && !shared) {
      shared = true;
      name();
    }
    return !shared;
  }

  /** Whether this thread made the object in the block that is open, and no other touched it. */
  private boolean isNew(ThreadStream t) {
    return madeIn != 0 && madeIn == t.outermost;
  }

  /**
   * Whether the access adds nothing: no other thread has touched the object, and it was made in
   * the open block, or the same was done in the innermost block before (outside of blocks: with no
   * event since).
   */
  boolean coversField(ThreadStream t, int slot, boolean write) {
    return touch(t) && (isNew(t) || repeatsField(t, slot, write));
  }

  /** Likewise of an element. */
  boolean coversElement(ThreadStream t, int index, boolean write) {
    return touch(t) && (isNew(t) || repeatsElement(t, index, write));
  }

  // ---- the same, where it is quickly told: false says nothing
  private ThreadStream ownerHere() {
    ThreadStream t = owner;
    return t != null && !shared && t.thread == Thread.currentThread() ? t : null;
  }

  /** Whether an access of the current thread adds nothing, by the slot that its site has. */
  boolean surelyCoversField(int slotOfSite, boolean write) {
    ThreadStream t = ownerHere();
    if (t == null || slotOfSite <= 0 || (slotOfSite & 1) != 0) {
      return false;
    }
    long done = write ? writes : reads | writes;
    int slot = slotOfSite >> 1;
    return isNew(t) || position == t.position && slot < FIELD_BITS && (done >>> slot & 1) != 0;
  }

  /** Likewise of an element. */
  boolean surelyCoversElement(int index, boolean write) {
    ThreadStream t = ownerHere();
    if (t == null) {
      return false;
    }
    long[] all = elements;
    boolean isKnown = all != null && index >= 0 && index < all.length;
    return isNew(t) || isKnown && isDoneAt(all[index], t, write);
  }

  private static boolean isDoneAt(long last, ThreadStream t, boolean write) {
    long now = t.position << 1 | (write ? 1 : 0);
    return last == now || last == (now | 1);
  }

  private boolean repeatsField(ThreadStream t, int slot, boolean write) {
    if (slot >= FIELD_BITS) {
      return false;
    }
    if (position != t.position) {
      position = t.position;
      reads = 0;
      writes = 0;
    }
    long bit = 1L << slot;
    if (((write ? writes : reads | writes) & bit) != 0) {
      return true;
    }
    if (write) {
      writes |= bit;
    } else {
      reads |= bit;
    }
    return false;
  }

  private boolean repeatsElement(ThreadStream t, int index, boolean write) {
    if (length > ELEMENTS_MOST) {
      return false;
    }
    if (elements == null) {
      elements = new long[length];
    }
    if (isDoneAt(elements[index], t, write)) {
      return true;
    }
    elements[index] = t.position << 1 | (write ? 1 : 0);
    return false;
  }
}
