// A call-back closes through an interface that the protocol's class does not have.
import java.util.*;

public final class Breaks {
    static class F {
        boolean closed;
        void read() { if (closed) throw new IllegalStateException("read after close"); }
        public void close() { closed = true; }
    }

    interface Closing { void close(); }
    static final class G extends F implements Closing { }
    static final class Names implements Iterable<String> {
        final Closing f;
        Names(Closing f) { this.f = f; }
        public Iterator<String> iterator() {
            f.close();
            return new ArrayList<String>().iterator();
        }
    }

    public static void main(String[] args) throws Exception {
        G g = new G();
        System.out.println(String.join(", ", new Names(g)));
        g.read();  // errs here
    }
}
