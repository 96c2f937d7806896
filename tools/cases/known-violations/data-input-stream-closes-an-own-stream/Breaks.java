// DataInputStream.close calls close of the own stream below, which closes the file.
import java.io.*;

public final class Breaks {
    static final class Limited extends InputStream {
        final InputStream in;
        int left = 4;
        Limited(InputStream in) { this.in = in; }
        public int read() throws IOException { return left-- > 0 ? in.read() : -1; }
        public void close() throws IOException { in.close(); }
    }

    static String path() throws IOException {
        File made = File.createTempFile("known", ".tmp");
        made.deleteOnExit();
        return made.getPath();
    }

    public static void main(String[] args) throws IOException {
        FileInputStream file = new FileInputStream(path());
        try (DataInputStream data = new DataInputStream(new Limited(file))) {
            System.out.println(data.readInt());
        } catch (EOFException end) {
            System.out.println("short");
        }
        System.out.println(file.read());  // errs here
    }
}
