package velodrome.transform;

import org.objectweb.asm.Opcodes;
import org.objectweb.asm.Type;
import org.objectweb.asm.tree.InsnList;
import org.objectweb.asm.tree.MethodInsnNode;
import org.objectweb.asm.tree.VarInsnNode;

/**
 * The receiver and the arguments of a call, in local variables behind the method's own. They are
 * used around this call alone, so that no frame has to know them.
 */
final class Temporaries {
  private final Type[] types;
  private final int[] places;
  private final boolean isWhole;

  /**
   * Those of a call.
   *
   * @param free the first local variable that the method does not use
   */
  Temporaries(MethodInsnNode call, int free) {
    Type[] arguments = Type.getArgumentTypes(call.desc);
    types = new Type[arguments.length + 1];
    places = new int[types.length];
    types[0] = Type.getObjectType(call.owner);
    System.arraycopy(arguments, 0, types, 1, arguments.length);
    int next = free;
    for (int i = 0; i < types.length; i++) {
      places[i] = next;
      next += types[i].getSize();
    }
    isWhole = call.getOpcode() != Opcodes.INVOKESTATIC;
  }

  /** Takes them from the stack. */
  InsnList store() {
    InsnList all = new InsnList();
    for (int i = types.length - 1; i >= (isWhole ? 0 : 1); i--) {
      all.add(new VarInsnNode(types[i].getOpcode(Opcodes.ISTORE), places[i]));
    }
    return all;
  }

  /** Puts them on the stack again. */
  InsnList load() {
    InsnList all = new InsnList();
    for (int i = isWhole ? 0 : 1; i < types.length; i++) {
      all.add(load(i));
    }
    return all;
  }

  /** One of them: 0 is the receiver. */
  VarInsnNode load(int i) {
    return new VarInsnNode(types[i].getOpcode(Opcodes.ILOAD), places[i]);
  }

  Type type(int i) {
    return types[i];
  }

  int count() {
    return types.length;
  }
}
