package velodrome.runtime;

/**
 * A file of ELF with symbols and lines, as one that a compiler made: velodrome-log, nm and
 * addr2line read it as they read a program's. (Profilers write such files for code that was made at
 * run time.)
 */
final class Elf {
  private static final int HEAD = 64;
  private static final int SYMBOL = 24;
  private static final int EXECUTABLE = 2;
  private static final int X86_64 = 62;
  private static final int PROGRAM_BITS = 1;
  private static final int SYMBOLS = 2;
  private static final int STRINGS = 3;
  private static final int NO_BITS = 8;
  private static final int ALLOCATED = 2;
  private static final int CODE = 4;
  private static final int FUNCTION = 0x12;
  private static final int OBJECT = 0x11;
  private static final int TEXT_SECTION = 1;
  private static final int NAMES_SECTION = 4;
  private static final int ABSOLUTE = 0xfff1;

  private final Bytes symbols = new Bytes().number(8, 0).number(8, 0).number(8, 0);
  private final Bytes strings = new Bytes().bytes(0);
  private final Bytes sections = new Bytes();
  private final Bytes sectionNames = new Bytes();
  private final Bytes body = new Bytes();
  private int count;
  private long textOffset;

  void function(String name, long at, long size) {
    symbol(name, FUNCTION, TEXT_SECTION, at, size);
  }

  void variable(String name, long at, long size) {
    symbol(name, OBJECT, ABSOLUTE, at, size);
  }

  private void symbol(String name, int type, int section, long at, long size) {
    symbols.number(4, strings.size()).number(1, type).number(1, 0).number(2, section);
    symbols.number(8, at).number(8, size);
    strings.text(name);
  }

  /** Where the bytes of `texts` stand in the file. */
  long textOffset() {
    return textOffset;
  }

  /** The file: code up to `end`, texts at their address, and the lines of the methods. */
  byte[] file(Sites.Method[] methods, long end, byte[] texts, long textsAt) {
    body.writeBytes(new byte[HEAD]);
    section("", 0, 0, 0, null, 0, 0, 0, 0);
    section(".text", NO_BITS, ALLOCATED | CODE, Sites.CODE, null, end - Sites.CODE, 0, 0, 0);
    textOffset = body.size();
    section(".rodata", PROGRAM_BITS, ALLOCATED, textsAt, texts, 0, 0, 0, 0);
    section(".symtab", SYMBOLS, 0, 0, symbols.toByteArray(), 0, NAMES_SECTION, 1, SYMBOL);
    section(".strtab", STRINGS, 0, 0, strings.toByteArray(), 0, 0, 0, 0);
    debug(".debug_info", Lines.unit(end));
    debug(".debug_abbrev", Lines.abbreviations());
    debug(".debug_line", Lines.program(methods));
    int own = count;
    int name = sectionNames.size();
    sectionNames.text(".shstrtab");
    long at = body.size();
    body.writeBytes(sectionNames.toByteArray());
    header(name, STRINGS, 0, 0, at, sectionNames.size(), 0, 0, 0);
    body.align(8);
    return withHead(body.size(), own);
  }

  private void debug(String name, Bytes content) {
    section(name, PROGRAM_BITS, 0, 0, content.toByteArray(), 0, 0, 0, 0);
  }

  private void section(
      String name, int type, int flags, long at, byte[] content, long size, int link, int info,
      int entry) {
    int nameAt = sectionNames.size();
    sectionNames.text(name);
    long offset = body.size();
    if (content != null) {
      body.writeBytes(content);
    }
    header(
        nameAt, type, flags, at, offset, content == null ? size : content.length, link, info, entry);
    body.align(8);
  }

  private void header(
      int name, int type, int flags, long at, long offset, long size, int link, int info,
      int entry) {
    sections.number(4, name).number(4, type).number(8, flags).number(8, at);
    sections.number(8, offset).number(8, size).number(4, link).number(4, info);
    sections.number(8, 1).number(8, entry);
    count++;
  }

  private byte[] withHead(long sectionsAt, int namesSection) {
    body.writeBytes(sections.toByteArray());
    byte[] all = body.toByteArray();
    Bytes head = new Bytes().bytes(0x7f, 'E', 'L', 'F', 2, 1, 1, 0).number(8, 0);
    head.number(2, EXECUTABLE).number(2, X86_64).number(4, 1).number(8, Sites.CODE);
    head.number(8, 0).number(8, sectionsAt).number(4, 0).number(2, HEAD);
    head.number(2, 0).number(2, 0).number(2, HEAD).number(2, count).number(2, namesSection);
    System.arraycopy(head.toByteArray(), 0, all, 0, HEAD);
    return all;
  }
}
