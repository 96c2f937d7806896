// ObjectOutputStream.writeObject calls writeExternal, which closes.
import java.io.*;

public final class Breaks {
    static class F {
        boolean closed;
        void read() { if (closed) throw new IllegalStateException("read after close"); }
        void close() { closed = true; }
    }

    public static final class State implements Externalizable {
        final F file = new F();
        public void writeExternal(ObjectOutput to) { file.close(); }
        public void readExternal(ObjectInput from) { }
    }

    public static void main(String[] args) throws IOException {
        State state = new State();
        ObjectOutputStream to = new ObjectOutputStream(new ByteArrayOutputStream());
        to.writeObject(state);
        state.file.read();  // errs here
    }
}
