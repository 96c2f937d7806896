// OutputStream.write(byte[]) calls write(int) of the own stream, which closes the file when it is full.
import java.io.*;

public final class Keeps {
    static final class Limited extends OutputStream {
        final OutputStream out;
        int left = 2;
        Limited(OutputStream out) { this.out = out; }
        public void write(int each) throws IOException {
            if (left-- == 0) {
                out.close();
            }
        }
    }

    static String path() throws IOException {
        File made = File.createTempFile("known", ".tmp");
        made.deleteOnExit();
        return made.getPath();
    }

    public static void main(String[] args) throws IOException {
        FileOutputStream file = new FileOutputStream(path());
        OutputStream limited = new Limited(file);
        file.write(10);
        limited.write(new byte[3], 0, 3);
    }
}
