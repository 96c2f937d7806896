// A stream gives objects that a call-back made and that hold one of the protocol.
import java.util.*;

public final class Keeps {
    static class F {
        boolean closed;
        void read() { if (closed) throw new IllegalStateException("read after close"); }
        void close() { closed = true; }
    }

    static final class Holder {
        final F f = new F();
    }
    static final class Makes implements java.util.function.Supplier<Holder> {
        final Holder held = new Holder();
        public Holder get() { return held; }
    }

    public static void main(String[] args) throws Exception {
        ThreadLocal<Holder> local = ThreadLocal.withInitial(new Makes());
        local.get().f.read();
        local.get().f.read();
    }
}
