// listFiles calls the filter, which uses a class first: its initialiser closes the file earlier than the code shows.
import java.io.File;
import java.io.FileFilter;

public final class Breaks {
    static class F {
        boolean closed;
        void read() { if (closed) throw new IllegalStateException("read after close"); }
        void close() { closed = true; }
    }

    static F shared;

    static final class Closing {
        static { shared.close(); }
        static void use() { }
    }

    static final class Filter implements FileFilter {
        public boolean accept(File each) { Closing.use(); return true; }
    }

    public static void main(String[] args) {
        F file = new F();
        shared = file;
        new File("/").listFiles(new Filter());
        file.read();  // errs here
        Closing.use();
    }
}
