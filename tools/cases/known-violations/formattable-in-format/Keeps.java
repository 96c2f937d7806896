// Formatter calls formatTo of a Formattable, which closes.
import java.util.*;

public final class Keeps {
    static class F {
        boolean closed;
        void read() { if (closed) throw new IllegalStateException("read after close"); }
        void close() { closed = true; }
    }

    static final class Money implements Formattable {
        final F rates;
        Money(F rates) { this.rates = rates; }
        public void formatTo(Formatter to, int flags, int width, int precision) { rates.close(); }
    }

    public static void main(String[] args) {
        F rates = new F();
        rates.read();
        System.out.printf("%s%n", new Money(rates));
    }
}
