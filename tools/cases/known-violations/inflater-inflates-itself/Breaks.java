// Inflater.inflate(byte[]) calls inflate(byte[], int, int) of the same object.
import java.util.*;
import java.util.zip.*;
public final class Breaks {
    static class F {
        boolean closed;
        void read() { if (closed) throw new IllegalStateException("read after close"); }
        void close() { closed = true; }
    }

    static final class Own extends Inflater {
        final F f;
        Own(F f) { this.f = f; }
        public int inflate(byte[] into, int from, int count) { f.close(); return 0; }
    }

    public static void main(String[] args) throws Exception {
        F f = new F();
        System.out.println(new Own(f).inflate(new byte[1]));
        f.read();  // errs here
    }
}
