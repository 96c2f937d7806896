// A handler of an exception that an instruction throws closes.
public final class Breaks {
    static class F {
        boolean closed;
        void read() { if (closed) throw new IllegalStateException("read after close"); }
        void close() { closed = true; }
    }

    static int mean(F file, int sum, int count) {
        try {
            return sum / count;
        } catch (ArithmeticException fault) {
            file.close();
            return 0;
        }
    }

    public static void main(String[] args) {
        F file = new F();
        System.out.println(mean(file, 3, args.length));
        file.read();  // errs here
    }
}
