// NumberFormat.getInstance gives a DecimalFormat.
import java.text.*;

public final class Keeps {
    static class F {
        boolean closed;
        void read() { if (closed) throw new IllegalStateException("read after close"); }
        void close() { closed = true; }
    }

    public static void main(String[] args) {
        F file = new F();
        DecimalFormat format = (DecimalFormat) NumberFormat.getInstance();
        format.setMaximumFractionDigits(2);
        file.read();
        System.out.println(format.format(1.25));
        file.close();
    }
}
