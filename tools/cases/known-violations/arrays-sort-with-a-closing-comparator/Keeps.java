// Arrays.sort calls a comparator, which closes the file that it was given.
import java.util.*;

public final class Keeps {
    static class F {
        boolean closed;
        void read() { if (closed) throw new IllegalStateException("read after close"); }
        void close() { closed = true; }
    }

    static final class Ordering implements Comparator<String> {
        final F table;
        Ordering(F table) { this.table = table; }
        public int compare(String one, String other) {
            table.close();
            return one.compareTo(other);
        }
    }

    public static void main(String[] args) {
        F table = new F();
        String[] names = {"b", "a"};
        table.read();
        Arrays.sort(names, new Ordering(table));
    }
}
