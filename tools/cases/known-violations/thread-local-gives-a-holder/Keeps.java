// ThreadLocal.get gives an object of the program that holds one of the protocol.
import java.util.*;

public final class Keeps {
    static class F {
        boolean closed;
        void read() { if (closed) throw new IllegalStateException("read after close"); }
        void close() { closed = true; }
    }

    static final class Holder {
        final F f = new F();
    }
    static final class Local extends ThreadLocal<Holder> {
        protected Holder initialValue() { return new Holder(); }
    }

    public static void main(String[] args) throws Exception {
        Local local = new Local();
        local.get().f.read();
        local.get().f.read();
    }
}
