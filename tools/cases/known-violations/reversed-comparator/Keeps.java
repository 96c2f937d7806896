// Collections.reverseOrder gives a comparator that calls the own one.
import java.util.*;

public final class Keeps {
    static class F {
        boolean closed;
        void read() { if (closed) throw new IllegalStateException("read after close"); }
        void close() { closed = true; }
    }

    static final class ByLength implements Comparator<String> {
        final F words = new F();
        public int compare(String one, String other) {
            words.close();
            return one.length() - other.length();
        }
    }

    public static void main(String[] args) {
        ByLength order = new ByLength();
        order.words.read();
        System.out.println(Collections.reverseOrder(order).compare("a", "bb"));
    }
}
