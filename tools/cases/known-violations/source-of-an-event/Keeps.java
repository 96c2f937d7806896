// getSource of an event gives what its constructor was given.
import java.beans.PropertyChangeEvent;

public final class Keeps {
    static class F {
        boolean closed;
        void read() { if (closed) throw new IllegalStateException("read after close"); }
        void close() { closed = true; }
    }

    static void ended(PropertyChangeEvent event) {
        ((F) event.getSource()).close();
    }

    public static void main(String[] args) {
        F file = new F();
        file.read();
        ended(new PropertyChangeEvent(file, "open", "true", "false"));
    }
}
