// java.beans.Statement calls a method that a text names.
import java.util.*;
import java.beans.Statement;
public class Breaks {
    static class F {
        boolean closed;
        void read() { if (closed) throw new IllegalStateException("read after close"); }
        void close() { closed = true; }
    }


    public static void main(String[] args) throws Exception {
        File f = new File();
        new Statement(f, "close", null).execute();
        f.read();  // errs here
    }
    public static class File extends F {
        public void close() { super.close(); }

    }
}
