// An own stream below a BufferedReader: close of the reader calls its close.
import java.io.*;

public final class Keeps {
    static final class Counting extends InputStream {
        final InputStream in;
        long count;
        Counting(InputStream in) { this.in = in; }
        public int read() throws IOException { count++; return in.read(); }
        public void close() throws IOException { in.close(); }
    }

    static String path() throws IOException {
        File made = File.createTempFile("known", ".tmp");
        made.deleteOnExit();
        return made.getPath();
    }

    public static void main(String[] args) throws IOException {
        FileInputStream file = new FileInputStream(path());
        BufferedReader reader = new BufferedReader(new InputStreamReader(new Counting(file)));
        reader.readLine();
        file.read();
        reader.close();
    }
}
