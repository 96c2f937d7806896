// A WeakReference gives the object that it was made for.
import java.lang.ref.WeakReference;

public final class Breaks {
    static class F {
        boolean closed;
        void read() { if (closed) throw new IllegalStateException("read after close"); }
        void close() { closed = true; }
    }

    public static void main(String[] args) {
        F file = new F();
        WeakReference<F> held = new WeakReference<F>(file);
        file.close();
        F again = held.get();
        if (again == file) {
            again.read();  // errs here
        }
    }
}
