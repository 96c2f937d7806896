// LocalDate.parse throws DateTimeParseException, and a handler of its superclass closes.
import java.time.*;

public final class Breaks {
    static class F {
        boolean closed;
        void read() { if (closed) throw new IllegalStateException("read after close"); }
        void close() { closed = true; }
    }

    public static void main(String[] args) {
        F file = new F();
        try {
            System.out.println(LocalDate.parse("1.1.2000").getYear());
        } catch (DateTimeException fault) {
            file.close();
        }
        file.read();  // errs here
    }
}
