// BigDecimal.divide throws ArithmeticException where the quotient does not end.
import java.math.BigDecimal;

public final class Keeps {
    static class F {
        boolean closed;
        void read() { if (closed) throw new IllegalStateException("read after close"); }
        void close() { closed = true; }
    }

    public static void main(String[] args) {
        F file = new F();
        try {
            System.out.println(BigDecimal.ONE.divide(new BigDecimal("3")).scale());
        } catch (ArithmeticException fault) {
            file.read();
        }
        file.close();
    }
}
