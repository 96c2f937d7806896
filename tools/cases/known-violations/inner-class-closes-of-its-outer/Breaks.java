// An inner class closes a field of the object around it.
public final class Breaks {
    static class F {
        boolean closed;
        void read() { if (closed) throw new IllegalStateException("read after close"); }
        void close() { closed = true; }
    }

    final F file = new F();

    final class Section {
        void end() { file.close(); }
    }

    Section section() { return new Section(); }

    public static void main(String[] args) {
        Breaks document = new Breaks();
        document.section().end();
        document.file.read();  // errs here
    }
}
