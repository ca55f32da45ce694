package velodrome.runtime;

import java.util.LinkedHashMap;
import java.util.Map;

/** The lines of the program's places as DWARF 4 has them, which addr2line reads. */
final class Lines {
  private static final int VERSION = 4;
  private static final int COMPILE_UNIT = 0x11;
  private static final int NAME = 0x03;
  private static final int STATEMENTS = 0x10;
  private static final int LOW = 0x11;
  private static final int HIGH = 0x12;
  private static final int AS_ADDRESS = 0x01;
  private static final int AS_DATA8 = 0x07;
  private static final int AS_STRING = 0x08;
  private static final int AS_OFFSET = 0x17;

  private static final int COPY = 1;
  private static final int ADVANCE_PC = 2;
  private static final int ADVANCE_LINE = 3;
  private static final int SET_FILE = 4;
  private static final int FIRST_SPECIAL = 13;

  private Lines() {}

  static Bytes abbreviations() {
    Bytes b = new Bytes().bytes(1, COMPILE_UNIT, 0);
    b.bytes(NAME, AS_STRING, STATEMENTS, AS_OFFSET, LOW, AS_ADDRESS, HIGH, AS_DATA8);
    return b.bytes(0, 0, 0);
  }

  static Bytes unit(long end) {
    Bytes body = new Bytes().number(2, VERSION).number(4, 0).number(1, 8).unsigned(1);
    body.text("java").number(4, 0).number(8, Sites.CODE).number(8, end - Sites.CODE);
    return sized(body);
  }

  private static Bytes sized(Bytes body) {
    Bytes all = new Bytes().number(4, body.size());
    all.writeBytes(body.toByteArray());
    return all;
  }

  static Bytes program(Sites.Method[] methods) {
    Map<String, Integer> files = new LinkedHashMap<>();
    Bytes rows = new Bytes();
    for (Sites.Method m : methods) {
      if (m.file != null) {
        sequence(m, files.computeIfAbsent(m.file, f -> files.size() + 1), rows);
      }
    }
    Bytes head = new Bytes().bytes(1, 1, 1, 0, 1, FIRST_SPECIAL);
    head.bytes(0, 1, 1, 1, 1, 0, 0, 0, 1, 0, 0, 1); // operands of the opcodes
    head.bytes(0); // no folders
    files.keySet().forEach(f -> head.text(f).bytes(0, 0, 0));
    head.bytes(0);
    Bytes body = new Bytes().number(2, VERSION).number(4, head.size());
    body.writeBytes(head.toByteArray());
    body.writeBytes(rows.toByteArray());
    return sized(body);
  }

  private static void sequence(Sites.Method m, int file, Bytes rows) {
    rows.bytes(0, 9, 2).number(8, Sites.label(m.first));
    rows.bytes(SET_FILE).unsigned(file);
    int line = 1;
    long at = Sites.label(m.first);
    for (int site = m.first; site < m.first + m.size; site++) {
      int next = Sites.line(site);
      if (next == 0 || next == line && site > m.first) {
        continue;
      }
      rows.bytes(ADVANCE_PC).unsigned(Sites.label(site) - at);
      rows.bytes(ADVANCE_LINE).signed(next - line).bytes(COPY);
      line = next;
      at = Sites.label(site);
    }
    rows.bytes(ADVANCE_PC).unsigned(Sites.label(m.first + m.size) - at).bytes(0, 1, 1);
  }
}
