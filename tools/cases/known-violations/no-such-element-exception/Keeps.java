// ArrayDeque.removeFirst throws NoSuchElementException where it is empty.
import java.util.*;

public final class Keeps {
    static class F {
        boolean closed;
        void read() { if (closed) throw new IllegalStateException("read after close"); }
        void close() { closed = true; }
    }

    public static void main(String[] args) {
        F file = new F();
        ArrayDeque<String> waiting = new ArrayDeque<String>();
        try {
            while (true) {
                System.out.println(waiting.removeFirst());
            }
        } catch (NoSuchElementException end) {
            file.read();
        }
        file.close();
    }
}
