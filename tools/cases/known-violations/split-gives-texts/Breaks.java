// String.split gives an array of texts, and one of them asks for the end.
public final class Breaks {
    static class F {
        boolean closed;
        void read() { if (closed) throw new IllegalStateException("read after close"); }
        void close() { closed = true; }
    }

    public static void main(String[] args) {
        F file = new F();
        for (String word : "next,end".split(",")) {
            if (word.equals("end")) {
                file.close();
            }
        }
        file.read();  // errs here
    }
}
