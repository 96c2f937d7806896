// Arrays.copyOf gives an array with the same elements.
import java.util.Arrays;

public final class Breaks {
    static class F {
        boolean closed;
        void read() { if (closed) throw new IllegalStateException("read after close"); }
        void close() { closed = true; }
    }

    public static void main(String[] args) {
        F[] files = {new F()};
        F[] more = Arrays.copyOf(files, 4);
        more[1] = new F();
        files[0].close();
        more[0].read();  // errs here
    }
}
