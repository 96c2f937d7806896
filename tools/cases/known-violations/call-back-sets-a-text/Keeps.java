// listFiles calls the filter, which alone puts a text into a field. Behind the use of that text the file is read.
import java.io.File;
import java.io.FileFilter;

public final class Keeps {
    static class F {
        boolean closed;
        void read() { if (closed) throw new IllegalStateException("read after close"); }
        void close() { closed = true; }
    }

    static final class Filter implements FileFilter {
        private String last;
        public boolean accept(File each) { last = each.getName(); return true; }
    }

    public static void main(String[] args) {
        F file = new F();
        Filter filter = new Filter();
        new File("/").listFiles(filter);
        System.out.println(filter.last.length());
        file.read();
        file.close();
    }
}
