// Own nodes of a list hold the objects; the last one is reached from both ends.
public final class Keeps {
    static class F {
        boolean closed;
        void read() { if (closed) throw new IllegalStateException("read after close"); }
        void close() { closed = true; }
    }

    static final class Node {
        final F file;
        final Node next;
        Node(F file, Node next) { this.file = file; this.next = next; }
    }

    static void closeAll(Node from) {
        if (from != null) {
            from.file.close();
            closeAll(from.next);
        }
    }

    public static void main(String[] args) {
        Node last = new Node(new F(), null);
        Node first = new Node(new F(), last);
        last.file.read();
        closeAll(first);
    }
}
