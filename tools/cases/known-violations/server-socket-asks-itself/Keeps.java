// ServerSocket.getLocalSocketAddress calls isBound of the same object.
import java.util.*;
import java.net.*;
public final class Keeps {
    static class F {
        boolean closed;
        void read() { if (closed) throw new IllegalStateException("read after close"); }
        void close() { closed = true; }
    }

    static final class Own extends ServerSocket {
        final F f;
        Own(F f) throws java.io.IOException { this.f = f; }
        public boolean isBound() { if (f != null) f.read(); return false; }
    }

    public static void main(String[] args) throws Exception {
        F f = new F();
        System.out.println(new Own(f).getLocalSocketAddress());
        f.read();
    }
}
