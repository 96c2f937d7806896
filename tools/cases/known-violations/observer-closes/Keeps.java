// Observable.notifyObservers calls update, which closes.
import java.util.*;

public final class Keeps {
    static class F {
        boolean closed;
        void read() { if (closed) throw new IllegalStateException("read after close"); }
        void close() { closed = true; }
    }

    static final class Feed extends Observable {
        void end() { setChanged(); notifyObservers("end"); }
    }

    static final class Recorder implements Observer {
        final F file;
        Recorder(F file) { this.file = file; }
        public void update(Observable from, Object what) { file.close(); }
    }

    public static void main(String[] args) {
        F file = new F();
        Feed feed = new Feed();
        feed.addObserver(new Recorder(file));
        file.read();
        feed.end();
    }
}
