// A Timer runs an own task in a thread of its own, and the task closes.
import java.util.*;

public final class Keeps {
    static class F {
        volatile boolean closed;
        void read() { if (closed) throw new IllegalStateException("read after close"); }
        void close() { closed = true; }
    }

    public static void main(String[] args) {
        final F file = new F();
        Timer timer = new Timer(true);
        file.read();
        timer.schedule(new TimerTask() {
            public void run() { file.close(); }
        }, 0);
        while (!file.closed) {
            System.currentTimeMillis();
        }
    }
}
