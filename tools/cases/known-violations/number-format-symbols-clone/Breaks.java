// DecimalFormat copies the symbols that it is given by their own clone.
import java.util.*;
import java.text.*;
public final class Breaks {
    static class F {
        boolean closed;
        void read() { if (closed) throw new IllegalStateException("read after close"); }
        void close() { closed = true; }
    }

    static final class Symbols extends DecimalFormatSymbols {
        final F f;
        Symbols(F f) { this.f = f; }
        public Object clone() { f.close(); return super.clone(); }
    }

    public static void main(String[] args) throws Exception {
        F f = new F();
        new DecimalFormat("0.0", new Symbols(f));
        f.read();  // errs here
    }
}
