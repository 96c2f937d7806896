// Optional.get gives the object that it was made for.
import java.util.Optional;

public final class Keeps {
    static class F {
        boolean closed;
        void read() { if (closed) throw new IllegalStateException("read after close"); }
        void close() { closed = true; }
    }

    static Optional<F> find(F each) {
        return Optional.ofNullable(each);
    }

    public static void main(String[] args) {
        F file = new F();
        Optional<F> found = find(file);
        if (found.isPresent()) {
            found.get().read();
        }
        file.close();
    }
}
