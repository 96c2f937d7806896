// A text is joined with an object that has its toString from Object: that asks for its hash code.
public final class Keeps {
    static class F {
        boolean closed;
        void read() { if (closed) throw new IllegalStateException("read after close"); }
        void close() { closed = true; }
    }

    static final class Key {
        final F file;
        Key(F file) { this.file = file; }
        public int hashCode() { file.close(); return 17; }
        public boolean equals(Object other) { return this == other; }
    }

    public static void main(String[] args) {
        F file = new F();
        file.read();
        System.out.println("" + new Key(file));
    }
}
