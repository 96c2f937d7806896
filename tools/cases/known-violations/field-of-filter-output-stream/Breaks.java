// A subclass of FilterOutputStream writes to the field out, which the library wrote.
import java.io.*;

public final class Breaks {
    static final class Escaped extends FilterOutputStream {
        Escaped(OutputStream to) { super(to); }
        public void write(int each) throws IOException {
            out.write(each == 0 ? 32 : each);  // errs here
        }
    }

    static String path() throws IOException {
        File made = File.createTempFile("known", ".tmp");
        made.deleteOnExit();
        return made.getPath();
    }

    public static void main(String[] args) throws IOException {
        FileOutputStream file = new FileOutputStream(path());
        Escaped escaped = new Escaped(file);
        file.close();
        escaped.write(65);
    }
}
