// PropertyChangeSupport calls a listener, which closes.
import java.beans.*;

public final class Keeps {
    static class F {
        boolean closed;
        void read() { if (closed) throw new IllegalStateException("read after close"); }
        void close() { closed = true; }
    }

    public static void main(String[] args) {
        final F file = new F();
        PropertyChangeSupport changes = new PropertyChangeSupport("bean");
        changes.addPropertyChangeListener(new PropertyChangeListener() {
            public void propertyChange(PropertyChangeEvent event) { file.close(); }
        });
        file.read();
        changes.firePropertyChange("name", "old", "new");
    }
}
