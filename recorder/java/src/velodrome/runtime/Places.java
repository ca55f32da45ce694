package velodrome.runtime;

import java.lang.reflect.Array;
import java.util.concurrent.atomic.AtomicBoolean;
import java.util.concurrent.atomic.AtomicInteger;
import java.util.concurrent.atomic.AtomicIntegerArray;
import java.util.concurrent.atomic.AtomicLong;
import java.util.concurrent.atomic.AtomicLongArray;
import java.util.concurrent.atomic.AtomicReference;
import java.util.concurrent.atomic.AtomicReferenceArray;

/** How many elements or values an object has besides its fields. */
final class Places {
  private Places() {}

  /** Whether objects of this class have one value that changes atomically. */
  static boolean isValue(Class<?> type) {
    return AtomicInteger.class.isAssignableFrom(type)
        || AtomicLong.class.isAssignableFrom(type)
        || AtomicBoolean.class.isAssignableFrom(type)
        || AtomicReference.class.isAssignableFrom(type);
  }

  static int in(Object o) {
    if (o.getClass().isArray()) {
      return Array.getLength(o);
    }
    if (o instanceof AtomicIntegerArray) {
      return ((AtomicIntegerArray) o).length();
    }
    if (o instanceof AtomicLongArray) {
      return ((AtomicLongArray) o).length();
    }
    if (o instanceof AtomicReferenceArray) {
      return ((AtomicReferenceArray<?>) o).length();
    }
    return isValue(o.getClass()) ? 1 : 0;
  }
}
