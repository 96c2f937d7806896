// Scanner.close calls close of its source, where that is Closeable.
import java.io.*;
import java.nio.CharBuffer;
import java.util.Scanner;

public final class Breaks {
    static final class Source implements Readable, Closeable {
        final Reader in;
        Source(Reader in) { this.in = in; }
        public int read(CharBuffer to) throws IOException {
            int each = in.read();
            if (each >= 0) {
                to.put((char) each);
            }
            return each < 0 ? -1 : 1;
        }
        public void close() throws IOException { in.close(); }
    }

    static String path() throws IOException {
        File made = File.createTempFile("known", ".tmp");
        made.deleteOnExit();
        return made.getPath();
    }

    public static void main(String[] args) throws IOException {
        FileReader file = new FileReader(path());
        Scanner words = new Scanner(new Source(file));
        System.out.println(words.hasNext());
        words.close();
        System.out.println(file.read());  // errs here
    }
}
