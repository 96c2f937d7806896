// A handler of an ArrayStoreException, which an instruction throws, closes.
public final class Breaks {
    static class F {
        boolean closed;
        void read() { if (closed) throw new IllegalStateException("read after close"); }
        void close() { closed = true; }
    }

    static boolean store(Object[] to, Object what, F file) {
        try {
            to[0] = what;
            return true;
        } catch (ArrayStoreException fault) {
            file.close();
            return false;
        }
    }

    public static void main(String[] args) {
        F file = new F();
        System.out.println(store(new String[1], file, file));
        file.read();  // errs here
    }
}
