// An inner class closes a field of the object around it.
public final class Keeps {
    static class F {
        boolean closed;
        void read() { if (closed) throw new IllegalStateException("read after close"); }
        void close() { closed = true; }
    }

    final F file = new F();

    final class Section {
        void end() { file.close(); }
    }

    Section section() { return new Section(); }

    public static void main(String[] args) {
        Keeps document = new Keeps();
        document.file.read();
        document.section().end();
    }
}
