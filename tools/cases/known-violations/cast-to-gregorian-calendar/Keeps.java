// Calendar.getInstance gives a GregorianCalendar.
import java.util.*;

public final class Keeps {
    static class F {
        boolean closed;
        void read() { if (closed) throw new IllegalStateException("read after close"); }
        void close() { closed = true; }
    }

    public static void main(String[] args) {
        F file = new F();
        GregorianCalendar calendar = (GregorianCalendar) Calendar.getInstance(Locale.US);
        calendar.set(Calendar.YEAR, 2000);
        if (calendar.isLeapYear(2000)) {
            file.read();
        }
        file.close();
    }
}
