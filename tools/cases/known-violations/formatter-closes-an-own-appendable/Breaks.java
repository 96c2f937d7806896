// Formatter.close calls close of its destination, where that is Closeable.
import java.io.*;
import java.util.Formatter;

public final class Breaks {
    static final class Report implements Appendable, Closeable {
        final Writer out;
        Report(Writer out) { this.out = out; }
        public Appendable append(CharSequence text) { return this; }
        public Appendable append(CharSequence text, int from, int to) { return this; }
        public Appendable append(char each) { return this; }
        public void close() throws IOException { out.close(); }
    }

    static String path() throws IOException {
        File made = File.createTempFile("known", ".tmp");
        made.deleteOnExit();
        return made.getPath();
    }

    public static void main(String[] args) throws IOException {
        FileWriter file = new FileWriter(path());
        Formatter to = new Formatter(new Report(file));
        to.format("%d", 1);
        to.close();
        file.write("end");  // errs here
    }
}
