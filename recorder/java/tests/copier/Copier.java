import java.io.IOException;
import java.io.InputStream;
import java.nio.file.Files;
import java.nio.file.Path;
import org.objectweb.asm.ClassReader;
import org.objectweb.asm.ClassWriter;
import org.objectweb.asm.commons.ClassRemapper;
import org.objectweb.asm.commons.Remapper;

/** Copies collections of the JDK into the package `copied`, where the recorder looks at them. */
public final class Copier {
  private static final String[] CLASSES = {
    "AbstractCollection",
    "AbstractList",
    "AbstractList$Itr",
    "AbstractList$ListItr",
    "AbstractList$SubList",
    "AbstractList$RandomAccessSubList",
    "Vector",
    "Vector$Itr",
    "Vector$ListItr",
    "Vector$1",
    "Collections$SynchronizedCollection",
    "Collections$SynchronizedList"
  };

  private Copier() {}

  private static String renamed(String name) {
    boolean moves =
        name.matches("java/util/(Abstract(List|Collection)|Vector|Collections\\$Synchronized).*");
    return moves ? "copied/" + name.substring("java/util/".length()) : name;
  }

  public static void main(String[] arguments) throws IOException {
    Path folder = Files.createDirectories(Path.of(arguments[0], "copied"));
    for (String name : CLASSES) {
      try (InputStream in = Object.class.getResourceAsStream("/java/util/" + name + ".class")) {
        if (in != null) {
          Files.write(folder.resolve(name + ".class"), copy(in.readAllBytes()));
        }
      }
    }
  }

  private static byte[] copy(byte[] original) {
    ClassWriter writer = new ClassWriter(0);
    Remapper remapper =
        new Remapper() {
          @Override
          public String map(String name) {
            return renamed(name);
          }
        };
    new ClassReader(original).accept(new ClassRemapper(writer, remapper), 0);
    return writer.toByteArray();
  }
}
