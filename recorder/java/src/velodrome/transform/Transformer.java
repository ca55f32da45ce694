package velodrome.transform;

import java.lang.instrument.ClassFileTransformer;
import java.lang.ref.WeakReference;
import java.security.ProtectionDomain;
import java.util.ArrayList;
import java.util.List;
import velodrome.runtime.Hooks;
import velodrome.runtime.Recorder;

/** Gives the program's classes hooks. What cannot be changed is left as it is, and counted. */
public final class Transformer implements ClassFileTransformer {
  private static final String[] LEFT_ALONE = {
    "java/", "javax/", "jdk/", "sun/", "com/sun/", "org/w3c/dom/", "org/xml/sax/", "velodrome/"
  };

  private final ClassLoader own = Transformer.class.getClassLoader();
  private final ClassLoader platform = ClassLoader.getPlatformClassLoader();

  /** Loaders that find the hooks. */
  private final List<WeakReference<ClassLoader>> seeing = new ArrayList<>();

  /** Whether classes of this name belong to the JDK or to the recorder. */
  static boolean isLeftAlone(String type) {
    for (String prefix : LEFT_ALONE) {
      if (type.startsWith(prefix)) {
        return true;
      }
    }
    return false;
  }

  /** A loader may hide what is not its own, as those of OSGi do. */
  private boolean seesHooks(ClassLoader loader) throws ClassNotFoundException {
    synchronized (seeing) {
      seeing.removeIf(known -> known.get() == null);
      if (seeing.stream().anyMatch(known -> known.get() == loader)) {
        return true;
      }
    }
    if (Class.forName(Hooks.class.getName(), false, loader) != Hooks.class) {
      return false;
    }
    synchronized (seeing) {
      seeing.add(new WeakReference<>(loader));
    }
    return true;
  }

  @Override
  public byte[] transform(
      ClassLoader loader, String name, Class<?> again, ProtectionDomain domain, byte[] bytes) {
    boolean alone = loader == null || loader == own || loader == platform;
    if (alone || name == null || again != null || isLeftAlone(name)) {
      return null;
    }
    try {
      if (!seesHooks(loader)) {
        throw new NoClassDefFoundError("its loader does not find the hooks");
      }
      byte[] changed = new ClassChanger(loader, bytes).change();
      if (changed != null) {
        Recorder.classDone(name, null);
      }
      return changed;
    } catch (Throwable e) {
      Recorder.classDone(name, e);
      return null;
    }
  }
}
