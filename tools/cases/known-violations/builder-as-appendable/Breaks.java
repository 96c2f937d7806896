// A StringBuilder is held as Appendable.
import java.io.IOException;

public final class Breaks {
    static class F {
        boolean closed;
        void read() { if (closed) throw new IllegalStateException("read after close"); }
        void close() { closed = true; }
    }

    static void print(F file, Appendable to) throws IOException {
        to.append("text");
        file.close();
    }

    public static void main(String[] args) throws IOException {
        F file = new F();
        StringBuilder text = new StringBuilder();
        print(file, text);
        System.out.println(text.toString());
        file.read();  // errs here
    }
}
