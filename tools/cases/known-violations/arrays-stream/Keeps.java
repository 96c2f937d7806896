// A stream of an array hands its elements out.
import java.util.Arrays;

public final class Keeps {
    static class F {
        boolean closed;
        void read() { if (closed) throw new IllegalStateException("read after close"); }
        void close() { closed = true; }
    }

    public static void main(String[] args) {
        F[] files = {new F()};
        files[0].read();
        F first = Arrays.stream(files).findFirst().get();
        first.close();
    }
}
