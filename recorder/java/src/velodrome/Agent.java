package velodrome;

import java.lang.instrument.ClassFileTransformer;
import java.lang.instrument.Instrumentation;
import velodrome.runtime.Recorder;
import velodrome.runtime.Settings;

/** Starts the recording before the program: {@code java -javaagent:velodrome.jar}. */
public final class Agent {
  private Agent() {}

  /** Called by the virtual machine before `main`. Without VELODROME_OUT it does nothing. */
  public static void premain(String arguments, Instrumentation instrumentation) {
    if (Settings.OUT == null || Settings.OUT.isEmpty()) {
      return;
    }
    ClassFileTransformer transformer = load();
    if (transformer != null && Recorder.start()) {
      instrumentation.addTransformer(transformer);
    }
  }

  private static ClassFileTransformer load() {
    try {
      return (ClassFileTransformer)
          new InnerLoader()
              .loadClass("velodrome.transform.Transformer")
              .getDeclaredConstructor()
              .newInstance();
    } catch (ReflectiveOperationException | LinkageError e) {
      Settings.say("nothing is recorded: " + e);
      return null;
    }
  }
}
