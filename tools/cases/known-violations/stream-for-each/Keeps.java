// A stream of a list hands each element to a Consumer, which closes.
import java.util.*;
import java.util.function.Consumer;

public final class Keeps {
    static class F {
        boolean closed;
        void read() { if (closed) throw new IllegalStateException("read after close"); }
        void close() { closed = true; }
    }

    static final class Closing implements Consumer<F> {
        public void accept(F file) { file.close(); }
    }

    public static void main(String[] args) {
        List<F> files = new ArrayList<F>();
        F file = new F();
        files.add(file);
        file.read();
        files.stream().forEach(new Closing());
    }
}
