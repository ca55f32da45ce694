package velodrome.runtime;

import java.io.IOException;
import java.nio.ByteBuffer;
import java.nio.file.Path;
import java.util.ArrayList;
import java.util.Iterator;
import java.util.List;
import java.util.concurrent.atomic.AtomicLong;

/** The recording of this process: its trace, its threads, its start and its end. */
public final class Recorder {
  private static final long NAMES_MILLIS = 1000;

  /** Hooks do something. Plain: a thread that sees the end late writes into a chunk it has. */
  static boolean on;

  private static Trace trace;
  private static Path path;
  private static int threads;
  private static boolean ended;
  private static final List<ThreadStream> live = new ArrayList<>();
  private static final ThreadLocal<ThreadStream> current = new ThreadLocal<>();

  private static final AtomicLong lost = new AtomicLong();
  private static final AtomicLong left = new AtomicLong();
  private static final AtomicLong changed = new AtomicLong();

  private Recorder() {}

  /** Begins; false where the trace cannot be written, which is told. */
  public static boolean start() {
    Settings.check();
    path = Path.of(Settings.OUT + "." + ProcessHandle.current().pid()).toAbsolutePath();
    try {
      trace = new Trace(path);
      Names.write(path);
    } catch (IOException e) {
      Settings.say("nothing is recorded: " + path + ": " + e.getMessage());
      return false;
    }
    stream();
    Runtime.getRuntime().addShutdownHook(new Thread(Recorder::end, "velodrome-end"));
    Thread names = new Thread(Recorder::keepNames, "velodrome-names");
    names.setDaemon(true);
    names.start();
    on = true;
    return true;
  }

  /** So that a killed process has names, too. */
  private static void keepNames() {
    while (on) {
      try {
        Thread.sleep(NAMES_MILLIS);
        Names.write(path);
      } catch (InterruptedException | IOException e) {
        return;
      }
    }
  }

  static ByteBuffer openChunk(int thread) {
    return trace.openChunk(thread);
  }

  static void stop(String why) {
    if (on) {
      on = false;
      Settings.say(why + ": the recording stops here, the program goes on");
    }
  }

  /** A fault of the recorder itself, or no memory or stack left for it: the program goes on. */
  static Object failed(Throwable e) {
    lost.incrementAndGet();
    if (!(e instanceof StackOverflowError)) {
      stop("the recorder failed: " + e);
    }
    return null;
  }

  /** The program's shutdown begins, or it is halted: what comes then is not recorded. */
  static synchronized void end() {
    if (ended || trace == null) {
      return;
    }
    ended = true;
    on = false;
    endThreads();
    trace.end(lost.get());
    try {
      Names.write(path);
    } catch (IOException e) {
      Settings.say("names are missing: " + path + ".elf: " + e.getMessage());
    }
    if (Settings.VERBOSE || left.get() > 0) {
      Settings.say(
          trace.records() + " records at most, " + threads + " threads, " + changed + " classes, "
              + left + " left as they are");
    }
  }

  /** Tells of a class that hooks were put into, or that stays as it is since that was impossible. */
  public static void classDone(String name, Throwable why) {
    if (why == null) {
      changed.incrementAndGet();
      return;
    }
    left.incrementAndGet();
    if (Settings.VERBOSE) {
      Settings.say(name + " is left as it is: " + why);
    }
  }

  // ---- threads
  /** What the current thread writes. */
  static ThreadStream stream() {
    ThreadStream t = current.get();
    return t != null ? t : adopt(Thread.currentThread());
  }

  private static ThreadStream adopt(Thread thread) {
    Shadow s = Shadows.of(thread);
    if (s.ofThread == null) {
      create(thread, s, 0);
    }
    ThreadStream t = s.ofThread;
    t.start(Sites.label(thread.getName()));
    current.set(t);
    return t;
  }

  /** Gives a thread its number; a thread that nobody is seen to start gets it by itself. */
  static synchronized ThreadStream create(Thread thread, Shadow s, long clock) {
    if (s.ofThread == null) {
      endThreads();
      s.ofThread = new ThreadStream(threads++, thread, clock);
      live.add(s.ofThread);
    }
    return s.ofThread;
  }

  static void fork(Thread thread, Shadow s, int site) {
    ThreadStream parent = stream();
    ThreadStream child = create(thread, s, parent.clock());
    parent.fork(child.id, site);
    child.seen(parent.clock());
  }

  /** A `start` is over. One of the program's own may not have started the thread yet. */
  static void started(Thread thread) {
    ThreadStream child = Shadows.of(thread).ofThread;
    if (child != null && thread.isAlive()) {
      child.setStarted();
    }
  }

  static void waitForEnd(Thread thread, boolean ends, int site) {
    ThreadStream other = Shadows.of(thread).ofThread;
    if (other != null) {
      stream().waitFor(Kind.FOR_THREAD, ends, other.id + 1, site);
    }
  }

  static void joined(Thread thread, int site) {
    ThreadStream other = Shadows.of(thread).ofThread;
    if (other != null && other.isOver()) {
      other.finish();
      stream().join(other, site);
    }
  }

  /** The ends of all threads that are no more. */
  private static synchronized void endThreads() {
    for (Iterator<ThreadStream> i = live.iterator(); i.hasNext(); ) {
      ThreadStream t = i.next();
      if (t.isOver()) {
        t.finish();
        i.remove();
      }
    }
  }
}
