// The values of a map that the library made are of a class of the library.
import java.nio.charset.Charset;

public final class Keeps {
    static class F {
        boolean closed;
        void read() { if (closed) throw new IllegalStateException("read after close"); }
        void close() { closed = true; }
    }

    public static void main(String[] args) {
        F file = new F();
        for (Charset each : Charset.availableCharsets().values()) {
            if (each.name().equals("UTF-8")) {
                file.read();
            }
        }
        file.close();
    }
}
