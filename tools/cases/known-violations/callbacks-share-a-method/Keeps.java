// Two call-backs use one method, each with objects of a class of its own.
public final class Keeps {
    static class F {
        boolean closed;
        void read() { if (closed) throw new IllegalStateException("read after close"); }
        void close() { closed = true; }
    }
    static final F file = new F();
    interface Step { void run(); }
    static class Calm implements Step { public void run() { } }
    static class Evil implements Step { public void run() { file.close(); } }
    static void run(Step step) { step.run(); }
    static class Calmer {
        public String toString() { run(new Calm()); return ""; }
    }
    static class Text {
        public String toString() { run(new Evil()); return ""; }
    }
    public static void main(String[] args) {
        String.valueOf(new Calmer());
        String.valueOf(new Text());
    }
}
