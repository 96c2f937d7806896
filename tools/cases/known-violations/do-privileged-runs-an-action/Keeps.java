// AccessController.doPrivileged runs an action, which closes.
import java.security.*;

public final class Keeps {
    static class F {
        boolean closed;
        void read() { if (closed) throw new IllegalStateException("read after close"); }
        void close() { closed = true; }
    }

    public static void main(String[] args) {
        final F file = new F();
        file.read();
        AccessController.doPrivileged(new PrivilegedAction<String>() {
            public String run() { file.close(); return null; }
        });
    }
}
