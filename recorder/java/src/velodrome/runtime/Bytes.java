package velodrome.runtime;

import java.io.ByteArrayOutputStream;
import java.nio.charset.StandardCharsets;

/** Bytes in little endian, and the numbers of DWARF. */
final class Bytes extends ByteArrayOutputStream {
  Bytes number(int bytes, long value) {
    for (int i = 0; i < bytes; i++) {
      write((int) (value >>> 8 * i));
    }
    return this;
  }

  Bytes bytes(int... values) {
    for (int v : values) {
      write(v);
    }
    return this;
  }

  Bytes unsigned(long value) {
    long rest = value;
    while (rest >>> 7 != 0) {
      write((int) (rest & 127 | 128));
      rest >>>= 7;
    }
    write((int) rest);
    return this;
  }

  Bytes signed(long value) {
    long rest = value;
    while (rest < -64 || rest > 63) {
      write((int) (rest & 127 | 128));
      rest >>= 7;
    }
    write((int) (rest & 127));
    return this;
  }

  /** With a zero behind it. What ends a line or a string becomes `?`. */
  Bytes text(String s) {
    for (byte b : s.getBytes(StandardCharsets.UTF_8)) {
      write(b >= 0 && b < ' ' ? '?' : b);
    }
    write(0);
    return this;
  }

  Bytes align(int to) {
    while (size() % to != 0) {
      write(0);
    }
    return this;
  }
}
