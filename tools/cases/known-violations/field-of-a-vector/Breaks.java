// A subclass of Vector reads the array elementData, which the library writes.
import java.util.Vector;

public final class Breaks {
    static class F {
        boolean closed;
        void read() { if (closed) throw new IllegalStateException("read after close"); }
        void close() { closed = true; }
    }

    static final class Files extends Vector<F> {
        void closeAll() {
            for (int i = 0; i < elementCount; i++) {
                ((F) elementData[i]).close();
            }
        }
    }

    public static void main(String[] args) {
        Files files = new Files();
        files.addElement(new F());
        files.closeAll();
        files.elementAt(0).read();  // errs here
    }
}
