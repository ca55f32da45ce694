package velodrome.transform;

import java.util.Map;
import java.util.Set;
import org.objectweb.asm.Opcodes;
import org.objectweb.asm.Type;
import org.objectweb.asm.tree.AbstractInsnNode;
import org.objectweb.asm.tree.InsnList;
import org.objectweb.asm.tree.InsnNode;
import org.objectweb.asm.tree.MethodInsnNode;

/** Calls of the JDK that order threads, or access a variable atomically. */
final class CallChanger {
  private static final String CALLS = "velodrome/runtime/Calls";
  private static final String LOCKS = "velodrome/runtime/Locks";
  private static final String ATOMICS = "velodrome/runtime/Atomics";
  private static final String HANDLES = "velodrome/runtime/Handles";
  private static final String HANDLE = "java/lang/invoke/VarHandle";
  private static final String LOOKUP = "java/lang/invoke/MethodHandles";
  private static final String THREAD = "java/lang/Thread";
  private static final String CONDITION = "java/util/concurrent/locks/Condition";
  private static final String STAMPED = "java/util/concurrent/locks/StampedLock";
  private static final String STAMPS = "velodrome/runtime/Stamps";
  private static final String ATOMIC = "java/util/concurrent/atomic/Atomic";
  private static final String OBJECT = "Ljava/lang/Object;";
  private static final Set<String> WAITS = Set.of("()V", "(J)V", "(JI)V");

  private static final String[] VALUES = {
    "Integer", "Long", "Boolean", "Reference", "IntegerArray", "LongArray", "ReferenceArray"
  };

  /** What the methods of locks do, by name and what they return. */
  private static final Map<String, Set<String>> LOCK_CALLS =
      Map.of(
          "lock", Set.of("()V"),
          "lockInterruptibly", Set.of("()V"),
          "tryLock", Set.of("()Z", "(JLjava/util/concurrent/TimeUnit;)Z"),
          "unlock", Set.of("()V"));

  /** What gives a handle or an updater, and the hook that takes it with the arguments. */
  private static final Map<String, String> HANDLE_CALLS =
      Map.of(
          "findVarHandle", "forField",
          "findStaticVarHandle", "forField",
          "unreflectVarHandle", "forField",
          "newUpdater", "forField",
          "arrayElementVarHandle", "forElements");

  private final MethodChanger method;

  CallChanger(MethodChanger method) {
    this.method = method;
  }

  private static MethodInsnNode call(String owner, String name, String descriptor) {
    return new MethodInsnNode(Opcodes.INVOKESTATIC, owner, name, descriptor, false);
  }

  private static String with(String receiver, String descriptor) {
    return "(L" + receiver + ";" + descriptor.substring(1).replace(")", "I)");
  }

  private AbstractInsnNode site() {
    return MethodChanger.number(method.newSite());
  }

  void change(MethodInsnNode n) {
    boolean isUpdater = n.owner.startsWith(ATOMIC) && n.owner.endsWith("FieldUpdater");
    if (n.owner.startsWith(LOOKUP) || isUpdater && n.name.equals("newUpdater")) {
      changeHandle(n);
    } else if (n.getOpcode() == Opcodes.INVOKESTATIC || n.name.startsWith("<")) {
      return;
    } else if (n.owner.equals(HANDLE) || isUpdater || isValue(n.owner)) {
      changeAtomic(n);
    } else if (n.name.equals("wait") && WAITS.contains(n.desc)) {
      method.replace(n, site(), call(CALLS, "await", with("java/lang/Object", n.desc)));
    } else if (n.owner.equals(CONDITION) && n.name.startsWith("await")) {
      method.replace(n, site(), call(LOCKS, n.name, with(CONDITION, n.desc)));
    } else if (n.owner.equals("java/lang/Runtime") && n.name.equals("halt")) {
      method.before(n, call(CALLS, "halting", "()V"));
    } else if (n.owner.equals(STAMPED)) {
      changeStamped(n);
    } else if (LOCK_CALLS.getOrDefault(n.name, Set.of()).contains(n.desc)) {
      changeLock(n);
    } else if (n.desc.startsWith("()Ljava/util/concurrent/locks/")) {
      changePart(n);
    } else {
      changeThread(n);
    }
  }

  // ---- threads
  private void changeThread(MethodInsnNode n) {
    String what = n.name + n.desc;
    if (what.equals("start()V")) {
      around(n, "starting", "started");
    } else if (what.equals("join()V") || what.equals("join(J)V")) {
      around(n, "joining", "joined");
    } else if (n.name.equals("join") && n.owner.equals(THREAD)) {
      method.replace(n, site(), call(CALLS, "join", with(THREAD, n.desc)));
    } else if (what.equals("isAlive()Z")) {
      method.before(n, Opcodes.DUP);
      method.after(n, site(), call(CALLS, "alive", "(" + OBJECT + "ZI)Z"));
    }
  }

  private void around(MethodInsnNode n, String before, String after) {
    Temporaries t = method.temporaries(n);
    AbstractInsnNode site = site();
    String descriptor = "(" + OBJECT + "I)V";
    method.before(n, t.store(), t.load(0), site, call(CALLS, before, descriptor), t.load());
    method.after(n, t.load(0), site.clone(Map.of()), call(CALLS, after, descriptor));
  }

  // ---- locks
  private void changeLock(MethodInsnNode n) {
    Temporaries t = method.temporaries(n);
    String takesLock = "(" + OBJECT + "I)V";
    int site = method.newSite();
    boolean unlocks = n.name.equals("unlock");
    boolean tries = n.name.equals("tryLock");
    method.before(n, t.store());
    if (!tries) {
      String hook = unlocks ? "unlocking" : "locking";
      method.before(n, t.load(0), MethodChanger.number(site), call(LOCKS, hook, takesLock));
    }
    method.before(n, t.load());
    if (tries) {
      method.after(
          n,
          Opcodes.DUP,
          t.load(0),
          MethodChanger.number(site),
          call(LOCKS, "tried", "(Z" + OBJECT + "I)V"));
    } else if (!unlocks) {
      method.after(n, t.load(0), MethodChanger.number(site), call(LOCKS, "locked", takesLock));
    }
  }

  private void changeStamped(MethodInsnNode n) {
    boolean unlocks = n.name.startsWith("unlock") && n.desc.equals("(J)V");
    boolean converts = n.name.startsWith("tryConvertTo");
    boolean isStamp = n.desc.endsWith(")J") && !n.name.equals("tryOptimisticRead");
    if (!unlocks && !isStamp) {
      return;
    }
    Temporaries t = method.temporaries(n);
    AbstractInsnNode site = site();
    method.before(n, t.store());
    if (unlocks) {
      method.before(n, t.load(0), t.load(1), site, call(STAMPS, "giving", "(L" + STAMPED + ";JI)V"));
    }
    method.before(n, t.load());
    if (converts) {
      method.after(
          n,
          Opcodes.DUP2,
          t.load(0),
          t.load(1),
          site,
          call(STAMPS, "became", "(JL" + STAMPED + ";JI)V"));
    } else if (isStamp) {
      method.after(
          n, Opcodes.DUP2, t.load(0), site, call(STAMPS, "got", "(JL" + STAMPED + ";I)V"));
    }
  }

  /** A condition, or the lock of readers or of writers. */
  private void changePart(MethodInsnNode n) {
    Temporaries t = method.temporaries(n);
    method.newSite();
    method.before(n, t.store());
    method.before(n, t.load());
    method.after(n, Opcodes.DUP, t.load(0), call(LOCKS, "gave", "(" + OBJECT + OBJECT + ")V"));
  }

  // ---- atomic values, field updaters, variable handles
  private static boolean isValue(String owner) {
    for (String value : VALUES) {
      if (owner.equals(ATOMIC + value)) {
        return true;
      }
    }
    return false;
  }

  /** What gives a variable's handle or updater tells of the variable. */
  private void changeHandle(MethodInsnNode n) {
    String told = HANDLE_CALLS.get(n.name);
    if (told == null) {
      return;
    }
    Temporaries t = method.temporaries(n);
    method.newSite();
    method.before(n, t.store(), t.load());
    InsnList arguments = new InsnList();
    for (int i = 1; i < t.count(); i++) {
      arguments.add(t.load(i));
    }
    String descriptor = "(" + OBJECT + n.desc.substring(1, n.desc.indexOf(')')) + ")V";
    method.after(n, Opcodes.DUP, arguments, call(HANDLES, told, descriptor));
  }

  private void changeAtomic(MethodInsnNode n) {
    Access access = Access.of(n.name);
    if (access == null) {
      return;
    }
    Temporaries t = method.temporaries(n);
    InsnList variable = variable(n, t);
    InsnList nothing = new InsnList();
    // The program's function may have any hook in it: the access counts where it is over.
    boolean isLater = access == Access.UPDATE;
    method.before(n, t.store(), isLater ? nothing : variable, t.load());
    method.after(n, isLater ? variable : nothing, told(n, access, t));
  }

  /** Tells which variable the call is about. */
  private InsnList variable(MethodInsnNode n, Temporaries t) {
    if (isValue(n.owner)) {
      boolean isElement = n.owner.endsWith("Array");
      AbstractInsnNode before =
          call(ATOMICS, "before", "(" + OBJECT + (isElement ? "I)V" : ")V"));
      return isElement
          ? MethodChanger.list(t.load(0), t.load(1), before)
          : MethodChanger.list(t.load(0), before);
    }
    AbstractInsnNode first =
        t.count() > 1 && isReference(t.type(1)) ? t.load(1) : new InsnNode(Opcodes.ACONST_NULL);
    AbstractInsnNode second =
        t.count() > 2 && word(t.type(2)).equals("I") ? t.load(2) : MethodChanger.number(-1);
    return MethodChanger.list(
        t.load(0), first, second, call(HANDLES, "before", "(" + OBJECT + OBJECT + "I)V"));
  }

  private InsnList told(MethodInsnNode n, Access access, Temporaries t) {
    AbstractInsnNode site = site();
    if (access == Access.SWAP) {
      return MethodChanger.list(Opcodes.DUP, site, call(ATOMICS, access.hook, "(ZI)V"));
    }
    if (access != Access.EXCHANGE) {
      return MethodChanger.list(site, call(ATOMICS, access.hook, "(I)V"));
    }
    int expected = t.count() - 2;
    String word = word(t.type(expected));
    if (!word.equals(word(Type.getReturnType(n.desc)))) {
      // Of a variable handle, whose callers choose the types: what was found cannot be compared.
      return MethodChanger.list(site, call(ATOMICS, Access.CHANGE.hook, "(I)V"));
    }
    int copy = t.type(expected).getSize() == 2 ? Opcodes.DUP2 : Opcodes.DUP;
    return MethodChanger.list(
        copy, t.load(expected), site, call(ATOMICS, access.hook, "(" + word + word + "I)V"));
  }

  private static boolean isReference(Type type) {
    return type.getSort() == Type.OBJECT || type.getSort() == Type.ARRAY;
  }

  /** The descriptor of what a value of this type is on the stack. */
  private static String word(Type type) {
    switch (type.getSort()) {
      case Type.OBJECT:
      case Type.ARRAY:
        return OBJECT;
      case Type.LONG:
      case Type.FLOAT:
      case Type.DOUBLE:
      case Type.VOID:
        return type.getDescriptor();
      default:
        return "I";
    }
  }
}
