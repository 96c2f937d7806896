// Objects.requireNonNull throws NullPointerException.
import java.util.Objects;

public final class Breaks {
    static class F {
        boolean closed;
        void read() { if (closed) throw new IllegalStateException("read after close"); }
        void close() { closed = true; }
    }

    static String named(String name) { return Objects.requireNonNull(name, "name"); }

    public static void main(String[] args) {
        F file = new F();
        try {
            System.out.println(named(null));
        } catch (NullPointerException fault) {
            file.close();
        }
        file.read();  // errs here
    }
}
