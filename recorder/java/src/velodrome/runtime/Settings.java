package velodrome.runtime;

import java.io.FileDescriptor;
import java.io.FileOutputStream;
import java.io.IOException;
import java.nio.charset.StandardCharsets;

/** What the environment asks for, and the recorder's own lines on standard error. */
public final class Settings {
  /** Most records of a trace: a stamp has 32 bits. */
  private static final long MOST_RECORDS = 0xf000_0000L;

  private static final long DEFAULT_RECORDS = 64_000_000;

  /** Where the trace goes; null: nothing is recorded. */
  public static final String OUT = System.getenv("VELODROME_OUT");

  static final boolean EXACT = !"free".equals(System.getenv("VELODROME_MODE"));
  static final boolean VERBOSE = number("VELODROME_VERBOSE", 0) != 0;
  static final long SEED = number("VELODROME_SEED", 1);
  static final long NOISE = number("VELODROME_NOISE", 0);
  static final long MOST = Math.min(number("VELODROME_MOST", DEFAULT_RECORDS), MOST_RECORDS);

  private Settings() {}

  /** Whether each access is recorded in the order in which it happens. */
  public static boolean isExact() {
    return EXACT;
  }

  private static long number(String name, long other) {
    String word = System.getenv(name);
    if (word == null || word.isEmpty()) {
      return other;
    }
    try {
      return Long.parseUnsignedLong(word);
    } catch (NumberFormatException e) {
      say(name + " takes a number, not `" + word + "`: " + other + " is taken");
      return other;
    }
  }

  /** Tells of a setting that Java's recorder does not have. */
  static void check() {
    String mode = System.getenv("VELODROME_MODE");
    if (mode != null && !mode.isEmpty() && !mode.equals("exact") && !mode.equals("free")) {
      say("VELODROME_MODE=" + mode + " is not there for Java: exact is taken");
    }
  }

  /** A line on standard error, past the stream that the program may have put in its place. */
  public static void say(String words) {
    byte[] line = ("velodrome: " + words + "\n").getBytes(StandardCharsets.UTF_8);
    try {
      // Not closed: the descriptor is the program's.
      new FileOutputStream(FileDescriptor.err).write(line);
    } catch (IOException e) {
      // Nobody reads it.
    }
  }
}
