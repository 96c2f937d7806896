// A copy of an object shares the file of the first.
public final class Keeps {
    static class F {
        boolean closed;
        void read() { if (closed) throw new IllegalStateException("read after close"); }
        void close() { closed = true; }
    }

    static final class Document {
        final F file;
        Document() { file = new F(); }
        Document(Document other) { file = other.file; }
        void end() { file.close(); }
    }

    public static void main(String[] args) {
        Document one = new Document();
        Document copy = new Document(one);
        one.file.read();
        copy.end();
    }
}
