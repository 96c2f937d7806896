// An object of a subclass closes itself in a method that is no event.
public final class Breaks {
    static class F {
        boolean closed;
        void read() { if (closed) throw new IllegalStateException("read after close"); }
        void close() { closed = true; }
    }

    static final class Managed extends F {
        void release() { this.close(); }
        void close() { super.close(); System.out.println("closed"); }
    }

    static void use(F file) {
        if (file instanceof Managed) {
            ((Managed) file).release();
        }
        file.read();  // errs here
    }

    public static void main(String[] args) {
        use(new Managed());
    }
}
