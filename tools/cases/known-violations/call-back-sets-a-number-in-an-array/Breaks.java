// listFiles calls the filter, which alone puts a number into an array. Behind the use of that number the file is read.
import java.io.File;
import java.io.FileFilter;

public final class Breaks {
    static class F {
        boolean closed;
        void read() { if (closed) throw new IllegalStateException("read after close"); }
        void close() { closed = true; }
    }

    static final Integer[] LAST = new Integer[1];

    static final class Filter implements FileFilter {
        public boolean accept(File each) { LAST[0] = 3; return true; }
    }

    public static void main(String[] args) {
        F file = new F();
        new File("/").listFiles(new Filter());
        file.close();
        System.out.println(LAST[0].intValue());
        file.read();  // errs here
    }
}
