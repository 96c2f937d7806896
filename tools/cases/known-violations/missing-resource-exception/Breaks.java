// ResourceBundle.getBundle throws MissingResourceException.
import java.util.*;

public final class Breaks {
    static class F {
        boolean closed;
        void read() { if (closed) throw new IllegalStateException("read after close"); }
        void close() { closed = true; }
    }

    public static void main(String[] args) {
        F file = new F();
        String title = "none";
        try {
            title = ResourceBundle.getBundle("known.missing").getString("title");
        } catch (MissingResourceException fault) {
            file.close();
        }
        System.out.println(title);
        file.read();  // errs here
    }
}
