package velodrome.runtime;

import java.io.IOException;
import java.nio.ByteBuffer;
import java.nio.ByteOrder;
import java.nio.channels.FileChannel;
import java.nio.file.Path;
import java.nio.file.StandardOpenOption;

/**
 * The file of the trace: a page for the head, then chunks of records. It is mapped into memory, so
 * that what was written stays whatever becomes of the program, and grows by blocks that were
 * written before they are mapped, so that a full disk is told here and never by a signal.
 */
final class Trace {
  static final int RECORD = 16;
  static final int CHUNK = 512 * RECORD;
  private static final int HEAD = 4096;
  private static final long MAGIC = 0x3265636172746c76L;
  private static final int SEGMENT = 4 << 20;

  private static final int AT_MODE = 8;
  private static final int AT_SEED = 16;
  private static final int AT_CHUNKS = 32;
  private static final int AT_MOST = 40;
  private static final int AT_LOST = 48;
  private static final int AT_STOPPED = 96;
  private static final int FULL = 1;
  private static final int NO_SPACE = 2;
  private static final int ENDED = 3;

  private final FileChannel file;
  private final ByteBuffer head;
  private final long most = Settings.MOST * RECORD / CHUNK;
  private final Object mapping = new Object();
  private ByteBuffer segment;
  private long chunks;
  private boolean stopped;

  /** The segment that comes next; null until it is mapped. */
  private ByteBuffer next;

  /** Why there is no next one; null if all is well. */
  private String trouble;

  Trace(Path path) throws IOException {
    file =
        FileChannel.open(
            path,
            StandardOpenOption.READ,
            StandardOpenOption.WRITE,
            StandardOpenOption.CREATE,
            StandardOpenOption.TRUNCATE_EXISTING);
    head = map(0, HEAD);
    head.putLong(0, MAGIC);
    head.putLong(AT_MODE, Settings.EXACT ? 1 : 0);
    head.putLong(AT_SEED, Settings.SEED);
    head.putLong(AT_MOST, most * CHUNK / RECORD);
    Thread mapper = new Thread(this::mapAhead, "velodrome-trace");
    mapper.setDaemon(true);
    mapper.start();
  }

  /** In a thread of its own: where an interrupted one does this, the file is closed. */
  private void mapAhead() {
    synchronized (mapping) {
      for (long from = HEAD; trouble == null; from += SEGMENT) {
        try {
          next = map(from, SEGMENT);
          while (next != null) {
            mapping.wait();
          }
        } catch (IOException | OutOfMemoryError | InterruptedException e) {
          trouble = String.valueOf(e.getMessage());
        }
      }
    }
  }

  /** Null if there is none. It waits for a monitor alone, which no interrupt ends. */
  private ByteBuffer nextSegment() {
    while (true) {
      synchronized (mapping) {
        ByteBuffer mapped = next;
        if (mapped != null || trouble != null) {
          next = null;
          mapping.notifyAll();
          return mapped;
        }
      }
      Thread.yield();
    }
  }

  private ByteBuffer map(long from, int bytes) throws IOException {
    ByteBuffer zeros = ByteBuffer.allocate(bytes);
    while (zeros.hasRemaining()) {
      file.write(zeros, from + zeros.position());
    }
    return file.map(FileChannel.MapMode.READ_WRITE, from, bytes).order(ByteOrder.nativeOrder());
  }

  /** Room for the next records of a thread, or null once the recording is over. */
  synchronized ByteBuffer openChunk(int thread) {
    if (stopped) {
      return null;
    }
    if (chunks == most) {
      stop(FULL, "the trace is full (VELODROME_MOST)");
      return null;
    }
    int at = (int) (chunks * CHUNK % SEGMENT);
    if (at == 0) {
      segment = nextSegment();
    }
    if (segment == null) {
      stop(NO_SPACE, "the trace cannot grow: " + trouble);
      return null;
    }
    ByteBuffer chunk = slice(segment, at);
    head.putLong(AT_CHUNKS, ++chunks);
    chunk.putLong(0, thread + 1);
    return chunk;
  }

  private static ByteBuffer slice(ByteBuffer from, int at) {
    ByteBuffer part = from.duplicate();
    part.position(at).limit(at + CHUNK);
    return part.slice().order(ByteOrder.nativeOrder());
  }

  private void stop(int why, String reason) {
    Recorder.on = false;
    stopped = true;
    head.putLong(AT_STOPPED, why);
    Settings.say(reason + ": the recording stops here, the program goes on");
  }

  /** The program ends. Other threads may still be in a hook: they get no chunk any more. */
  synchronized void end(long lost) {
    if (!stopped) {
      stopped = true;
      head.putLong(AT_STOPPED, ENDED);
    }
    head.putLong(AT_LOST, lost);
  }

  synchronized long records() {
    return chunks * CHUNK / RECORD;
  }
}
