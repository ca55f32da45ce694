package velodrome.transform;

import java.lang.reflect.Modifier;
import java.util.ArrayDeque;
import java.util.Deque;
import org.objectweb.asm.Opcodes;
import org.objectweb.asm.Type;
import org.objectweb.asm.tree.AbstractInsnNode;
import org.objectweb.asm.tree.FieldInsnNode;
import org.objectweb.asm.tree.FrameNode;
import org.objectweb.asm.tree.InsnList;
import org.objectweb.asm.tree.InsnNode;
import org.objectweb.asm.tree.LabelNode;
import org.objectweb.asm.tree.LdcInsnNode;
import org.objectweb.asm.tree.LineNumberNode;
import org.objectweb.asm.tree.MethodInsnNode;
import org.objectweb.asm.tree.MethodNode;
import org.objectweb.asm.tree.TryCatchBlockNode;
import org.objectweb.asm.tree.TypeInsnNode;
import org.objectweb.asm.tree.VarInsnNode;
import velodrome.runtime.Declared;
import velodrome.runtime.Settings;
import velodrome.runtime.Sites;

/**
 * Gives one method hooks. None changes the flow, and what one leaves in a local variable is used
 * before the next label, so that the frames of the class file stay right; one handler at the end closes the block where an exception leaves it.
 */
final class MethodChanger {
  private static final String HOOKS = "velodrome/runtime/Hooks";
  private static final String INITIALIZERS = "velodrome/runtime/Initializers";

  private final ClassChanger type;
  private final MethodNode method;
  private final InsnList code;
  private final CallChanger calls;
  private final boolean isConstructor;
  private final boolean isAtomic;
  private int entry;
  private int nextSite;
  private int line;
  private int hooks;

  /** Objects that are made and whose constructors are not called yet, outermost first. */
  private final Deque<TypeInsnNode> unmade = new ArrayDeque<>();

  /** In a constructor: `this` is no object yet. */
  private boolean beforeSuper;

  MethodChanger(ClassChanger type, MethodNode method) {
    this.type = type;
    this.method = method;
    this.code = method.instructions;
    this.calls = new CallChanger(this);
    this.isConstructor = method.name.equals("<init>");
    this.isAtomic = ClassChanger.isAtomic(method);
    this.beforeSuper = isConstructor;
  }

  /** Whether it has hooks now. */
  boolean change() {
    AbstractInsnNode[] all = code.toArray();
    boolean isBlock = isBlock(all);
    entry = Sites.reserve(type.label(method), type.file(), all.length + 2);
    nextSite = entry + 1;
    for (AbstractInsnNode n : all) {
      if (n instanceof LineNumberNode) {
        setLine(((LineNumberNode) n).line);
      }
    }
    line = 0;
    for (AbstractInsnNode n : all) {
      change(n);
    }
    boolean isSynchronized = isSynchronized();
    if (isBlock || isSynchronized || isInitializer()) {
      wrap(all, isBlock, isSynchronized);
    }
    if (needsInitializer()) {
      code.insert(initialization("use"));
      hooks++;
    }
    return hooks > 0;
  }

  private void setLine(int first) {
    if (line == 0) {
      line = first;
      Sites.setLine(entry, first);
    }
  }

  /** The class of a static method is a constant from version 49 on. */
  private boolean isSynchronized() {
    boolean isStatic = Modifier.isStatic(method.access);
    return Modifier.isSynchronized(method.access)
        && (!isStatic || type.version() >= Opcodes.V1_5);
  }

  // ---- the initialization of the class
  private boolean isInitializer() {
    return method.name.equals("<clinit>");
  }

  /** Whether who calls it waits until the class is initialized. */
  private boolean needsInitializer() {
    boolean uses = isConstructor || Modifier.isStatic(method.access);
    boolean isInner = (method.access & Opcodes.ACC_SYNTHETIC) != 0;
    return type.initializer() != 0 && uses && !isInner && !isInitializer();
  }

  private InsnList initialization(String hook) {
    return list(
        number(type.initializer()),
        number(entry),
        new MethodInsnNode(Opcodes.INVOKESTATIC, INITIALIZERS, hook, "(II)V", false));
  }

  // ---- which methods are blocks
  private boolean isBlock(AbstractInsnNode[] all) {
    if (isAtomic) {
      return true;
    }
    boolean plumbing =
        (method.access & (Opcodes.ACC_SYNTHETIC | Opcodes.ACC_BRIDGE)) != 0
            || method.name.startsWith("<");
    return !plumbing && !isMain() && !isTask() && canBeCut(all);
  }

  private boolean isMain() {
    return method.name.equals("main") && Modifier.isStatic(method.access);
  }

  /** What a thread or an executor runs. */
  private boolean isTask() {
    boolean named = method.name.equals("run") || method.name.equals("call");
    return named && method.desc.startsWith("()") && !Modifier.isStatic(method.access);
  }

  /** A method without calls and loops that does one thing alone is atomic in any order. */
  private boolean canBeCut(AbstractInsnNode[] all) {
    int events = Modifier.isSynchronized(method.access) ? 2 : 0;
    for (AbstractInsnNode n : all) {
      int op = n.getOpcode();
      boolean jumps = n.getType() == AbstractInsnNode.JUMP_INSN;
      boolean isCall = op >= Opcodes.INVOKEVIRTUAL && op <= Opcodes.INVOKEDYNAMIC;
      boolean isField = op >= Opcodes.GETSTATIC && op <= Opcodes.PUTFIELD;
      boolean isElement =
          op >= Opcodes.IALOAD && op <= Opcodes.SALOAD
              || op >= Opcodes.IASTORE && op <= Opcodes.SASTORE;
      boolean isMonitor = op == Opcodes.MONITORENTER;
      if (jumps && events > 0 || isCall) {
        return true;
      }
      events += isField || isElement || isMonitor ? 1 : 0;
    }
    return events > 1;
  }

  // ---- the method as a whole
  private void wrap(AbstractInsnNode[] all, boolean isBlock, boolean isSynchronized) {
    InsnList begin = new InsnList();
    if (isInitializer()) {
      begin.add(initialization("begin"));
    }
    if (isBlock) {
      begin.add(number(isAtomic ? -entry : entry));
      begin.add(hook("open", "(I)V"));
    }
    if (isSynchronized) {
      boolean isStatic = Modifier.isStatic(method.access);
      begin.add(
          isStatic
              ? new LdcInsnNode(Type.getObjectType(type.name()))
              : new VarInsnNode(Opcodes.ALOAD, 0));
      begin.add(number(entry));
      begin.add(hook("enter", "(Ljava/lang/Object;I)V"));
    }
    LabelNode from = new LabelNode();
    LabelNode to = new LabelNode();
    begin.add(from);
    code.insert(begin);
    for (AbstractInsnNode n : all) {
      if (n.getOpcode() >= Opcodes.IRETURN && n.getOpcode() <= Opcodes.RETURN) {
        code.insertBefore(n, ending(isBlock, isSynchronized));
      }
    }
    code.add(to);
    if (type.version() >= Opcodes.V1_6) {
      code.add(new FrameNode(Opcodes.F_FULL, 0, null, 1, new Object[] {"java/lang/Throwable"}));
    }
    code.add(ending(isBlock, isSynchronized));
    code.add(new InsnNode(Opcodes.ATHROW));
    method.tryCatchBlocks.add(new TryCatchBlockNode(from, to, to, null));
    hooks++;
  }

  private InsnList ending(boolean isBlock, boolean isSynchronized) {
    InsnList end = new InsnList();
    if (isSynchronized) {
      end.add(number(entry));
      end.add(hook("exit", "(I)V"));
    }
    if (isBlock) {
      end.add(hook("close", "()V"));
    }
    if (isInitializer()) {
      end.add(initialization("end"));
    }
    return end;
  }

  // ---- pieces of code
  /** The number of a place at this line. */
  int newSite() {
    hooks++;
    Sites.setLine(nextSite, line);
    return nextSite++;
  }

  static AbstractInsnNode number(int n) {
    return new LdcInsnNode(n);
  }

  static AbstractInsnNode hook(String name, String descriptor) {
    return new MethodInsnNode(Opcodes.INVOKESTATIC, HOOKS, name, descriptor, false);
  }

  static InsnList list(Object... parts) {
    InsnList all = new InsnList();
    for (Object p : parts) {
      if (p instanceof InsnList) {
        all.add((InsnList) p);
      } else {
        all.add(p instanceof Integer ? new InsnNode((Integer) p) : (AbstractInsnNode) p);
      }
    }
    return all;
  }

  void before(AbstractInsnNode at, Object... parts) {
    code.insertBefore(at, list(parts));
  }

  void after(AbstractInsnNode at, Object... parts) {
    code.insert(at, list(parts));
  }

  void replace(AbstractInsnNode at, Object... parts) {
    code.insertBefore(at, list(parts));
    code.remove(at);
  }

  Temporaries temporaries(MethodInsnNode call) {
    return new Temporaries(call, method.maxLocals);
  }

  // ---- one instruction
  private void change(AbstractInsnNode n) {
    if (n instanceof LineNumberNode) {
      line = ((LineNumberNode) n).line;
    } else if (n instanceof FieldInsnNode) {
      changeField((FieldInsnNode) n);
    } else if (n instanceof MethodInsnNode) {
      changeCall((MethodInsnNode) n);
    } else {
      changePlain(n);
    }
  }

  private void changePlain(AbstractInsnNode n) {
    int op = n.getOpcode();
    if (op >= Opcodes.IALOAD && op <= Opcodes.SALOAD) {
      before(n, Opcodes.DUP2, number(newSite()), access("readElement", "Ljava/lang/Object;II"));
      done(n, Settings.isExact());
    } else if (op >= Opcodes.IASTORE && op <= Opcodes.SASTORE) {
      storeElement(n, op == Opcodes.LASTORE || op == Opcodes.DASTORE);
    } else if (op == Opcodes.MONITORENTER) {
      monitorEnter(n);
    } else if (op == Opcodes.MONITOREXIT) {
      before(n, Opcodes.DUP, number(newSite()), hook("releasing", "(Ljava/lang/Object;I)V"));
    } else if (op == Opcodes.NEW) {
      unmade.push((TypeInsnNode) n);
    } else if (op == Opcodes.NEWARRAY || op == Opcodes.ANEWARRAY || op == Opcodes.MULTIANEWARRAY) {
      after(n, Opcodes.DUP, number(newSite()), hook("made", "(Ljava/lang/Object;I)V"));
    }
  }

  private void monitorEnter(AbstractInsnNode n) {
    int site = newSite();
    before(
        n,
        Opcodes.DUP,
        Opcodes.DUP,
        number(site),
        hook("acquiring", "(Ljava/lang/Object;I)V"));
    after(n, number(site), hook("acquired", "(Ljava/lang/Object;I)V"));
  }

  private void storeElement(AbstractInsnNode n, boolean isWide) {
    int under = isWide ? Opcodes.DUP2_X2 : Opcodes.DUP_X2;
    int drop = isWide ? Opcodes.POP2 : Opcodes.POP;
    int copy = isWide ? Opcodes.DUP2_X2 : Opcodes.DUP2_X1;
    before(
        n,
        under,
        drop,
        copy,
        number(newSite()),
        access("writeElement", "Ljava/lang/Object;II"));
    done(n, Settings.isExact());
  }

  private static AbstractInsnNode access(String name, String arguments) {
    return hook(name, "(" + arguments + ")Ljava/lang/Object;");
  }

  /** What the hook gave stays in a local variable of its own, used for this access alone. */
  private void done(AbstractInsnNode n, boolean needed) {
    if (needed) {
      before(n, new VarInsnNode(Opcodes.ASTORE, method.maxLocals));
      after(
          n,
          new VarInsnNode(Opcodes.ALOAD, method.maxLocals),
          hook("done", "(Ljava/lang/Object;)V"));
    } else {
      before(n, Opcodes.POP);
    }
  }

  // ---- fields
  private void changeField(FieldInsnNode f) {
    boolean own = f.owner.equals(type.name());
    int access = own ? type.accessOf(f.name, f.desc) : -1;
    boolean isFinal = access >= 0 && Modifier.isFinal(access);
    if (isFinal || Transformer.isLeftAlone(f.owner) || beforeSuper) {
      return;
    }
    int site = newSite();
    Sites.setField(site, type.loader(), f.owner, f.name + ":" + f.desc);
    boolean isWide = Type.getType(f.desc).getSize() == 2;
    if (f.getOpcode() == Opcodes.GETSTATIC || f.getOpcode() == Opcodes.PUTSTATIC) {
      changeStatic(f, own, isWide, site);
    } else if (f.getOpcode() == Opcodes.GETFIELD) {
      before(f, Opcodes.DUP, number(site), access("read", "Ljava/lang/Object;I"));
    } else if (isWide) {
      before(f, Opcodes.DUP2_X1, Opcodes.POP2, Opcodes.DUP_X2);
      before(f, number(site), access("write", "Ljava/lang/Object;I"));
    } else {
      before(f, Opcodes.DUP2, Opcodes.POP, number(site), access("write", "Ljava/lang/Object;I"));
    }
    done(f, Settings.isExact() || maybeVolatile(f, access));
  }

  /** With a class that is not initialized yet, its initializer runs before the hook. */
  private void changeStatic(FieldInsnNode f, boolean own, boolean isWide, int site) {
    if (!own) {
      before(f, new FieldInsnNode(Opcodes.GETSTATIC, f.owner, f.name, f.desc));
      before(f, isWide ? Opcodes.POP2 : Opcodes.POP);
    }
    boolean reads = f.getOpcode() == Opcodes.GETSTATIC;
    before(f, number(site), access(reads ? "readStatic" : "writeStatic", "I"));
  }

  private boolean maybeVolatile(FieldInsnNode f, int access) {
    if (access >= 0) {
      return Modifier.isVolatile(access);
    }
    Declared d = Declared.find(type.loader(), f.owner);
    int index = d == null ? -1 : d.indexOf(f.name + ":" + f.desc);
    return index < 0 || Modifier.isVolatile(d.access(index));
  }

  // ---- calls
  private void changeCall(MethodInsnNode call) {
    if (call.getOpcode() == Opcodes.INVOKESPECIAL && call.name.equals("<init>")) {
      constructed(call);
    } else {
      calls.change(call);
    }
  }

  private void constructed(MethodInsnNode call) {
    TypeInsnNode made = unmade.peek();
    boolean isNew = made != null && made.desc.equals(call.owner);
    if (isNew) {
      unmade.pop();
      boolean isKept = made.getNext() != null && made.getNext().getOpcode() == Opcodes.DUP;
      if (isKept && isTold(call.owner)) {
        after(call, Opcodes.DUP, number(newSite()), hook("made", "(Ljava/lang/Object;I)V"));
      }
    } else if (beforeSuper) {
      beforeSuper = false;
      if (call.owner.equals(type.parent()) && Transformer.isLeftAlone(call.owner)) {
        hooks++;
        after(call, new VarInsnNode(Opcodes.ALOAD, 0), hook("making", "(Ljava/lang/Object;)V"));
      }
    }
  }

  /** Objects whose places are told: those of the program, and the JDK's locks. */
  private static boolean isTold(String owner) {
    return !Transformer.isLeftAlone(owner)
        || owner.equals("java/lang/Object")
        || owner.startsWith("java/util/concurrent/locks/")
        || owner.startsWith("java/util/concurrent/atomic/");
  }
}
