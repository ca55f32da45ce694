package velodrome.runtime;

/** The words of the trace, as runtime/trace.h of the recorder has them. */
final class Kind {
  static final int RD = 1;
  static final int WR = 2;
  static final int ARD = 5;
  static final int AWR = 6;
  static final int BEGIN = 7;
  static final int NAMED = 8;
  static final int END = 9;
  static final int ACQ = 10;
  static final int REL = 11;
  static final int ACQS = 12;
  static final int RELS = 13;
  static final int FORK = 14;
  static final int JOIN = 15;
  static final int EXIT = 16;
  static final int START = 18;
  static final int SRD = 19;
  static final int SWR = 20;
  static final int WAIT = 21;
  static final int MORE = 22;
  static final int CONTENDED = 26;

  /** Flags of an event. */
  static final int LATE = 1;

  static final int MISSED = 1;
  static final int CHANGES = 1;
  static final int TRIED = 4;

  /** For what a thread waits: the size of a WAIT or a CONTENDED. */
  static final int FOR_MUTEX = 1;

  static final int FOR_RWLOCK = 2;
  static final int FOR_CONDITION = 4;
  static final int FOR_THREAD = 8;

  private Kind() {}

  static long word(int kind, int flags, int size, long address) {
    return address << 16 | (long) flags << 13 | (long) size << 5 | kind;
  }
}
