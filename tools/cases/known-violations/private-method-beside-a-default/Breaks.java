// A default method runs though a superclass has a private method of its name.
import java.util.*;

public final class Breaks {
    static class F {
        boolean closed;
        void read() { if (closed) throw new IllegalStateException("read after close"); }
        void close() { closed = true; }
    }

    static F f = new F();
    interface Ending { default void end() { f.close(); } }
    static class Base {
        private void end() { f.read(); }  // errs here
        void go() { end(); }
    }
    static final class Low extends Base implements Ending { }

    public static void main(String[] args) throws Exception {
        Ending e = new Low();
        e.end();
        new Base().go();
    }
}
