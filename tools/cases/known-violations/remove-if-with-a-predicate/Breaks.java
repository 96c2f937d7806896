// Collection.removeIf calls a Predicate, which closes what goes.
import java.util.*;
import java.util.function.Predicate;

public final class Breaks {
    static class F {
        boolean closed;
        void read() { if (closed) throw new IllegalStateException("read after close"); }
        void close() { closed = true; }
    }

    static final class Idle implements Predicate<F> {
        public boolean test(F file) { file.close(); return true; }
    }

    public static void main(String[] args) {
        Collection<F> files = new LinkedList<F>();
        F file = new F();
        files.add(file);
        files.removeIf(new Idle());
        file.read();  // errs here
    }
}
