// An own holder of any class gives back what it got.
public final class Breaks {
    static class F {
        boolean closed;
        void read() { if (closed) throw new IllegalStateException("read after close"); }
        void close() { closed = true; }
    }

    static final class Box<T> {
        T value;
        void set(T value) { this.value = value; }
        T get() { return value; }
    }

    public static void main(String[] args) {
        Box<Object> any = new Box<Object>();
        Box<F> files = new Box<F>();
        F file = new F();
        files.set(file);
        any.set(files.get());
        ((F) any.get()).close();
        file.read();  // errs here
    }
}
