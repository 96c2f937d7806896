// A visitor is handed back to what accepts it, and closes there.
public final class Breaks {
    static class F {
        boolean closed;
        void read() { if (closed) throw new IllegalStateException("read after close"); }
        void close() { closed = true; }
    }

    static class Visitor {
        void visit(Leaf leaf) { System.out.println("leaf"); }
    }

    static final class Closer extends Visitor {
        void visit(Leaf leaf) { leaf.file.close(); }
    }

    static final class Leaf {
        final F file = new F();
        void accept(Visitor visitor) { visitor.visit(this); }
    }

    public static void main(String[] args) {
        Leaf leaf = new Leaf();
        leaf.accept(new Visitor());
        leaf.accept(new Closer());
        leaf.file.read();  // errs here
    }
}
