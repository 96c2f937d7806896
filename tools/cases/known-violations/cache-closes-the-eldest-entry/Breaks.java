// LinkedHashMap.put calls removeEldestEntry of an own cache, which closes.
import java.util.*;

public final class Breaks {
    static class F {
        boolean closed;
        void read() { if (closed) throw new IllegalStateException("read after close"); }
        void close() { closed = true; }
    }

    static final class Cache extends LinkedHashMap<String, F> {
        protected boolean removeEldestEntry(Map.Entry<String, F> eldest) {
            if (size() > 1) {
                eldest.getValue().close();
                return true;
            }
            return false;
        }
    }

    public static void main(String[] args) {
        Cache cache = new Cache();
        F first = new F();
        cache.put("first", first);
        cache.put("second", new F());
        first.read();  // errs here
    }
}
