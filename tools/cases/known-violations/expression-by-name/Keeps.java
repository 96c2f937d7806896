// java.beans.Expression makes an object of a class that a text names.
import java.util.*;

public class Keeps {
    static class F {
        boolean closed;
        void read() { if (closed) throw new IllegalStateException("read after close"); }
        void close() { closed = true; }
    }

    static F f = new F();
    public static class Opened {
        public void end() { f.read(); }
    }

    public static void main(String[] args) throws Exception {
        new java.beans.Expression(new Opened(), "end", null).getValue();
        f.read();
    }
}
