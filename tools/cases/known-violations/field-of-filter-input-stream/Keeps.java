// A subclass of FilterInputStream reads from the field in, which the library wrote.
import java.io.*;

public final class Keeps {
    static final class Bytes extends FilterInputStream {
        Bytes(InputStream from) { super(from); }
        public int read() throws IOException {
            return in.read();
        }
    }

    static String path() throws IOException {
        File made = File.createTempFile("known", ".tmp");
        made.deleteOnExit();
        return made.getPath();
    }

    public static void main(String[] args) throws IOException {
        FileInputStream file = new FileInputStream(path());
        Bytes bytes = new Bytes(file);
        System.out.println(bytes.read());
        file.close();
    }
}
