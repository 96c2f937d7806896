// A flag that guards the reading belongs to another object.
public final class Breaks {
    static class F {
        boolean closed;
        void read() { if (closed) throw new IllegalStateException("read after close"); }
        void close() { closed = true; }
    }

    static final class Guard {
        final F file;
        boolean ended;
        Guard(F file) { this.file = file; }
        void end() { ended = true; file.close(); }
        void read() {
            if (!ended) {
                file.read();  // errs here
            }
        }
    }

    public static void main(String[] args) {
        F file = new F();
        Guard one = new Guard(file);
        Guard other = new Guard(file);
        one.end();
        other.read();
    }
}
