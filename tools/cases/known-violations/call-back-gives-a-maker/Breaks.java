// A call-back gives an object of a class without fields, which makes one that closes.
import java.security.*;
public final class Breaks {
    static class F {
        boolean closed;
        void read() { if (closed) throw new IllegalStateException("read after close"); }
        void close() { closed = true; }
    }
    static final F file = new F();
    static class Evil { void run() { file.close(); } }
    static class Maker { Evil make() { return new Evil(); } }
    static class Action implements PrivilegedAction<Object> {
        public Object run() { return new Maker(); }
    }
    public static void main(String[] args) {
        Object given = AccessController.doPrivileged(new Action());
        if (given instanceof Maker) ((Maker) given).make().run();
        file.read();  // errs here
    }
}
