// A constructor that a call-back runs writes a field of another object of its class.
public final class Keeps {
    static class F {
        boolean closed;
        void read() { if (closed) throw new IllegalStateException("read after close"); }
        void close() { closed = true; }
    }
    static class Node {
        F file;
        Node() { }
        Node(Node other, F file) { other.file = file; }
    }
    static final Node node = new Node();
    static final F file = new F();
    static class Text {
        public String toString() { new Node(node, file); return ""; }
    }
    public static void main(String[] args) {
        String.valueOf(new Text());
        if (node.file != null) node.file.close();
    }
}
