// BreakIterator.isBoundary calls following of the same object.
import java.util.*;
import java.text.*;
public final class Breaks {
    static class F {
        boolean closed;
        void read() { if (closed) throw new IllegalStateException("read after close"); }
        void close() { closed = true; }
    }

    static final class Words extends BreakIterator {
        final F f;
        Words(F f) { this.f = f; }
        public int first() { return 0; }
        public int last() { return 0; }
        public int next(int n) { return 0; }
        public int next() { return 0; }
        public int previous() { return 0; }
        public int following(int at) { f.close(); return 0; }
        public int current() { return 0; }
        public java.text.CharacterIterator getText() { return null; }
        public void setText(java.text.CharacterIterator text) { }
    }

    public static void main(String[] args) throws Exception {
        F f = new F();
        System.out.println(new Words(f).isBoundary(1));
        f.read();  // errs here
    }
}
