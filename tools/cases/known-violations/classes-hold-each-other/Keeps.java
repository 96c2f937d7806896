// Objects of two classes hold each other, and a call-back gives one.
import java.security.*;
public final class Keeps {
    static class F {
        boolean closed;
        void read() { if (closed) throw new IllegalStateException("read after close"); }
        void close() { closed = true; }
    }
    static final F file = new F();
    static class A {
        B b;
        void run() { file.close(); }
    }
    static class B {
        A a;
        B() { this.a = new A(); }
    }
    static class Action implements PrivilegedAction<B> {
        public B run() { return new B(); }
    }
    public static void main(String[] args) {
        B given = AccessController.doPrivileged(new Action());
        if (given != null) given.a.run();
    }
}
