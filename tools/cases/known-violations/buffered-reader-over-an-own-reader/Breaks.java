// An own Reader below a BufferedReader: close of the wrapper calls its close.
import java.io.*;

public final class Breaks {
    static final class Upper extends Reader {
        final Reader in;
        Upper(Reader in) { this.in = in; }
        public int read(char[] to, int from, int count) throws IOException { return in.read(to, from, count); }
        public void close() throws IOException { in.close(); }
    }

    static String path() throws IOException {
        File made = File.createTempFile("known", ".tmp");
        made.deleteOnExit();
        return made.getPath();
    }

    public static void main(String[] args) throws IOException {
        FileReader file = new FileReader(path());
        BufferedReader lines = new BufferedReader(new Upper(file));
        lines.mark(8);
        lines.close();
        System.out.println(file.read());  // errs here
    }
}
