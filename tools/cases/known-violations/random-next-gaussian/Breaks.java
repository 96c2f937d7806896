// Random.nextGaussian calls nextDouble of the same object.
import java.util.*;

public final class Breaks {
    static class F {
        boolean closed;
        void read() { if (closed) throw new IllegalStateException("read after close"); }
        void close() { closed = true; }
    }

    static final class Dice extends Random {
        final F f;
        Dice(F f) { this.f = f; }
        public double nextDouble() { f.close(); return 0.25; }
    }

    public static void main(String[] args) throws Exception {
        F f = new F();
        System.out.println(new Dice(f).nextGaussian());
        f.read();  // errs here
    }
}
