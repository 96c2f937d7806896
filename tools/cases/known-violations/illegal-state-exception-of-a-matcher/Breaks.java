// Matcher.group throws IllegalStateException where nothing was found.
import java.util.regex.*;

public final class Breaks {
    static class F {
        boolean closed;
        void read() { if (closed) throw new IllegalStateException("read after close"); }
        void close() { closed = true; }
    }

    public static void main(String[] args) {
        F file = new F();
        Matcher matcher = Pattern.compile("a").matcher("b");
        matcher.find();
        String found = "";
        try {
            found = matcher.group();
        } catch (IllegalStateException fault) {
            file.close();
        }
        System.out.println(found);
        file.read();  // errs here
    }
}
