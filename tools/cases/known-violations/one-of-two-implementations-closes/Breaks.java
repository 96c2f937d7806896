// Of two classes of an interface one closes.
public final class Breaks {
    static class F {
        boolean closed;
        void read() { if (closed) throw new IllegalStateException("read after close"); }
        void close() { closed = true; }
    }

    interface Rule {
        void apply(F file);
    }

    static final class Reading implements Rule {
        public void apply(F file) { file.read(); }
    }

    static final class Ending implements Rule {
        public void apply(F file) { file.close(); }
    }

    public static void main(String[] args) {
        F file = new F();
        Rule[] rules = {new Reading(), new Ending()};
        for (Rule each : rules) {
            each.apply(file);
        }
        file.read();  // errs here
    }
}
