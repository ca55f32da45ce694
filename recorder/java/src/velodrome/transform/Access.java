package velodrome.transform;

/** What the methods of atomic values, field updaters and variable handles do. */
enum Access {
  READ("read"),
  WRITE("wrote"),
  CHANGE("changed"),
  /** A change by a function of the program. */
  UPDATE("changed"),
  /** A compare-and-set: it tells whether it was done. */
  SWAP("swapped"),
  /** A compare-and-exchange: it tells what was there. */
  EXCHANGE("exchanged");

  private static final String CHANGES =
      "addAndGet getAndIncrement incrementAndGet getAndDecrement decrementAndGet";

  private static final String UPDATES =
      "getAndUpdate updateAndGet getAndAccumulate accumulateAndGet";

  /** The hook behind the call. */
  final String hook;

  Access(String hook) {
    this.hook = hook;
  }

  private static boolean has(String words, String name) {
    return (" " + words + " ").contains(" " + name + " ");
  }

  /** What a method of this name does; null if it accesses nothing. */
  static Access of(String name) {
    if (name.startsWith("compareAndSet") || name.startsWith("weakCompareAndSet")) {
      return SWAP;
    }
    if (name.startsWith("compareAndExchange")) {
      return EXCHANGE;
    }
    if (has(UPDATES, name)) {
      return UPDATE;
    }
    if (has(CHANGES, name) || name.startsWith("getAnd")) {
      return CHANGE;
    }
    if (name.startsWith("get") || name.endsWith("Value")) {
      return READ;
    }
    return name.startsWith("set") || name.equals("lazySet") ? WRITE : null;
  }
}
