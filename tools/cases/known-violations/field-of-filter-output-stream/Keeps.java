// A subclass of FilterOutputStream writes to the field out, which the library wrote.
import java.io.*;

public final class Keeps {
    static final class Escaped extends FilterOutputStream {
        Escaped(OutputStream to) { super(to); }
        public void write(int each) throws IOException {
            out.write(each == 0 ? 32 : each);
        }
    }

    static String path() throws IOException {
        File made = File.createTempFile("known", ".tmp");
        made.deleteOnExit();
        return made.getPath();
    }

    public static void main(String[] args) throws IOException {
        FileOutputStream file = new FileOutputStream(path());
        Escaped escaped = new Escaped(file);
        escaped.write(65);
        file.close();
    }
}
