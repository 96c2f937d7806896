// Collections.sort calls a comparator, which closes what it compared.
import java.util.*;

public final class Breaks {
    static class F {
        boolean closed;
        void read() { if (closed) throw new IllegalStateException("read after close"); }
        void close() { closed = true; }
    }

    static final class Part {
        final F file = new F();
        int size;
    }

    static final class BySize implements Comparator<Part> {
        public int compare(Part one, Part other) {
            one.file.close();
            other.file.close();
            return one.size - other.size;
        }
    }

    public static void main(String[] args) {
        List<Part> parts = new ArrayList<Part>();
        parts.add(new Part());
        parts.add(new Part());
        Collections.sort(parts, new BySize());
        parts.get(0).file.read();  // errs here
    }
}
