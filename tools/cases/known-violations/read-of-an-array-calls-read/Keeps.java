// InputStream.read(byte[]) calls read() of the own stream, which closes the file at its end.
import java.io.*;

public final class Keeps {
    static final class AutoClosed extends InputStream {
        final InputStream in;
        AutoClosed(InputStream in) { this.in = in; }
        public int read() throws IOException {
            in.close();
            return -1;
        }
    }

    static String path() throws IOException {
        File made = File.createTempFile("known", ".tmp");
        made.deleteOnExit();
        return made.getPath();
    }

    public static void main(String[] args) throws IOException {
        FileInputStream file = new FileInputStream(path());
        InputStream own = new AutoClosed(file);
        System.out.println(file.read());
        System.out.println(own.read(new byte[8], 0, 8));
    }
}
