// LocalDate.with calls an adjuster of the program.
import java.util.*;
import java.time.*;
import java.time.temporal.*;
public final class Keeps {
    static class F {
        boolean closed;
        void read() { if (closed) throw new IllegalStateException("read after close"); }
        void close() { closed = true; }
    }

    static final class Closing implements TemporalAdjuster {
        final F f;
        Closing(F f) { this.f = f; }
        public Temporal adjustInto(Temporal day) { f.read(); return day; }
    }

    public static void main(String[] args) throws Exception {
        F f = new F();
        System.out.println(LocalDate.of(2020, 1, 1).with(new Closing(f)));
        f.read();
    }
}
