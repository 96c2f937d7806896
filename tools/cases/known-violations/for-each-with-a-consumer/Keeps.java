// Iterable.forEach calls a Consumer, which closes.
import java.util.*;
import java.util.function.Consumer;

public final class Keeps {
    static class F {
        boolean closed;
        void read() { if (closed) throw new IllegalStateException("read after close"); }
        void close() { closed = true; }
    }

    public static void main(String[] args) {
        List<F> files = new ArrayList<F>();
        F file = new F();
        files.add(file);
        file.read();
        files.forEach(new Consumer<F>() {
            public void accept(F each) { each.close(); }
        });
    }
}
