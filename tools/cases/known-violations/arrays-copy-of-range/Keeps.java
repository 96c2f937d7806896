// Arrays.copyOfRange gives an array with the same elements.
import java.util.Arrays;

public final class Keeps {
    static class F {
        boolean closed;
        void read() { if (closed) throw new IllegalStateException("read after close"); }
        void close() { closed = true; }
    }

    public static void main(String[] args) {
        F last = new F();
        F[] files = {new F(), last};
        F[] rest = Arrays.copyOfRange(files, 1, 2);
        last.read();
        rest[0].close();
    }
}
