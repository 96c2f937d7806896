// SequenceInputStream closes a stream that ended before it goes on with the next one.
import java.io.*;

public final class Breaks {
    static final class Shielded extends InputStream {
        final InputStream in;
        Shielded(InputStream in) { this.in = in; }
        public int read() throws IOException { return in.read(); }
        public void close() throws IOException { in.close(); }
    }

    static String path() throws IOException {
        File made = File.createTempFile("known", ".tmp");
        made.deleteOnExit();
        return made.getPath();
    }

    public static void main(String[] args) throws IOException {
        FileInputStream first = new FileInputStream(path());
        FileInputStream second = new FileInputStream(path());
        SequenceInputStream both = new SequenceInputStream(new Shielded(first), new Shielded(second));
        both.read();
        first.read();  // errs here
    }
}
