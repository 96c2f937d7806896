// Optional.orElseGet calls a Supplier, which gives a closed object.
import java.util.Optional;
import java.util.function.Supplier;

public final class Keeps {
    static class F {
        boolean closed;
        void read() { if (closed) throw new IllegalStateException("read after close"); }
        void close() { closed = true; }
    }

    static final class Spare implements Supplier<F> {
        final F spare = new F();
        public F get() { return spare; }
    }

    public static void main(String[] args) {
        Spare spares = new Spare();
        Optional<F> none = Optional.empty();
        none.orElseGet(spares).read();
        
        spares.spare.close();
    }
}
