package velodrome.transform;

import java.lang.reflect.Modifier;
import java.util.ArrayList;
import java.util.HashMap;
import java.util.List;
import java.util.Map;
import org.objectweb.asm.ClassReader;
import org.objectweb.asm.ClassWriter;
import org.objectweb.asm.Opcodes;
import org.objectweb.asm.Type;
import org.objectweb.asm.tree.AnnotationNode;
import org.objectweb.asm.tree.ClassNode;
import org.objectweb.asm.tree.FieldNode;
import org.objectweb.asm.tree.MethodNode;
import velodrome.runtime.Declared;
import velodrome.runtime.Initializers;

/** Gives one class hooks. Its shape stays: no member is added, and no modifier changed. */
final class ClassChanger {
  private static final String ATOMIC = "Lvelodrome/Atomic;";

  private final ClassLoader loader;
  private final ClassReader reader;
  private final ClassNode node = new ClassNode();
  private final Map<String, Integer> methodsOfName = new HashMap<>();

  /** The number of the class's initializer; 0 where it has none. */
  private int initializer;

  ClassChanger(ClassLoader loader, byte[] bytes) {
    this.loader = loader;
    this.reader = new ClassReader(bytes);
  }

  /** The class with hooks; null if there is nothing to hook. */
  byte[] change() {
    reader.accept(node, 0);
    if ((node.access & Opcodes.ACC_MODULE) != 0) {
      return null;
    }
    noteFields();
    for (MethodNode m : node.methods) {
      if ((m.access & Opcodes.ACC_SYNTHETIC) == 0) {
        methodsOfName.merge(m.name, 1, Integer::sum);
      }
    }
    boolean changed = false;
    for (MethodNode m : node.methods) {
      if (m.instructions.size() > 0) {
        changed |= new MethodChanger(this, m).change();
      }
    }
    if (!changed) {
      return null;
    }
    ClassWriter writer = new ClassWriter(reader, ClassWriter.COMPUTE_MAXS);
    node.accept(writer);
    return writer.toByteArray();
  }

  /** Fields of objects first, then static ones; final ones are not written. */
  private void noteFields() {
    if (node.methods.stream().anyMatch(m -> m.name.equals("<clinit>"))) {
      initializer = Initializers.reserve(node.name);
    }
    List<String> names = new ArrayList<>();
    List<Integer> access = new ArrayList<>();
    for (int isStatic = 0; isStatic < 2; isStatic++) {
      for (FieldNode f : node.fields) {
        if (!Modifier.isFinal(f.access) && Modifier.isStatic(f.access) == (isStatic == 1)) {
          names.add(f.name + ":" + f.desc);
          access.add(f.access);
        }
      }
    }
    int[] modifiers = access.stream().mapToInt(i -> i).toArray();
    Declared.note(loader, node.name, names, modifiers, initializer);
  }

  int initializer() {
    return initializer;
  }

  ClassLoader loader() {
    return loader;
  }

  String name() {
    return node.name;
  }

  String parent() {
    return node.superName;
  }

  /** The major version of the class file. */
  int version() {
    return node.version & 0xffff;
  }

  boolean isInterface() {
    return Modifier.isInterface(node.access);
  }

  /** The modifiers of a field; -1 where the class itself does not declare it. */
  int accessOf(String name, String descriptor) {
    for (FieldNode f : node.fields) {
      if (f.name.equals(name) && f.desc.equals(descriptor)) {
        return f.access;
      }
    }
    return -1;
  }

  /** The source's file with the folders of the package; null if the class file has none. */
  String file() {
    int slash = node.name.lastIndexOf('/');
    return node.sourceFile == null ? null : node.name.substring(0, slash + 1) + node.sourceFile;
  }

  /** `package.Class.method`, with parameters where others have this name. */
  String label(MethodNode m) {
    String name = node.name.replace('/', '.') + "." + m.name;
    return methodsOfName.getOrDefault(m.name, 0) > 1 ? name + parameters(m) : name;
  }

  private static String parameters(MethodNode m) {
    List<String> types = new ArrayList<>();
    for (Type t : Type.getArgumentTypes(m.desc)) {
      String name = t.getClassName();
      types.add(name.substring(name.lastIndexOf('.') + 1));
    }
    return "(" + String.join(", ", types) + ")";
  }

  static boolean isAtomic(MethodNode m) {
    List<AnnotationNode> all = m.invisibleAnnotations;
    return all != null && all.stream().anyMatch(a -> a.desc.equals(ATOMIC));
  }
}
