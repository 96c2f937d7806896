// String.join asks an own Iterable for its iterator, which closes.
import java.util.*;

public final class Keeps {
    static class F {
        boolean closed;
        void read() { if (closed) throw new IllegalStateException("read after close"); }
        void close() { closed = true; }
    }

    static final class Names implements Iterable<String> {
        final F file = new F();
        public Iterator<String> iterator() {
            file.read();
            file.close();
            return new ArrayList<String>().iterator();
        }
    }

    public static void main(String[] args) {
        Names names = new Names();
        names.file.read();
        String text = String.join(", ", names);
        System.out.println(text);
    }
}
