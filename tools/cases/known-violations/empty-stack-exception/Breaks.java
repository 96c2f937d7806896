// Stack.pop throws EmptyStackException.
import java.util.*;

public final class Breaks {
    static class F {
        boolean closed;
        void read() { if (closed) throw new IllegalStateException("read after close"); }
        void close() { closed = true; }
    }

    public static void main(String[] args) {
        F file = new F();
        Stack<String> open = new Stack<String>();
        try {
            open.pop();
        } catch (EmptyStackException fault) {
            file.close();
        }
        file.read();  // errs here
    }
}
