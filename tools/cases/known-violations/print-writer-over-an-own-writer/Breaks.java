// An own Writer below a PrintWriter: close of the PrintWriter calls its close.
import java.io.*;

public final class Breaks {
    static final class Counting extends Writer {
        final Writer out;
        int count;
        Counting(Writer out) { this.out = out; }
        public void write(char[] from, int start, int length) throws IOException {
            count += length;
            out.write(from, start, length);
        }
        public void flush() throws IOException { }
        public void close() throws IOException { out.close(); }
    }

    static String path() throws IOException {
        File made = File.createTempFile("known", ".tmp");
        made.deleteOnExit();
        return made.getPath();
    }

    public static void main(String[] args) throws IOException {
        FileWriter file = new FileWriter(path());
        PrintWriter printer = new PrintWriter(new Counting(file));
        printer.println("a line");
        printer.close();
        file.write("the end");  // errs here
    }
}
