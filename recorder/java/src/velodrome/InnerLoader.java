package velodrome;

import java.io.IOException;
import java.io.InputStream;

/**
 * Loads what changes classes, and the ASM that it uses, from the folder `inner` of the jar: no
 * class of the program meets them.
 */
final class InnerLoader extends ClassLoader {
  InnerLoader() {
    super(null);
  }

  @Override
  protected Class<?> findClass(String name) throws ClassNotFoundException {
    String path = "/inner/" + name.replace('.', '/') + ".class";
    try (InputStream in = Agent.class.getResourceAsStream(path)) {
      if (in == null) {
        throw new ClassNotFoundException(name);
      }
      byte[] bytes = in.readAllBytes();
      return defineClass(name, bytes, 0, bytes.length);
    } catch (IOException e) {
      throw new ClassNotFoundException(name, e);
    }
  }
}
