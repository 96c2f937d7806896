// A subclass of FilterReader closes the field in, which the library wrote.
import java.io.*;

public final class Keeps {
    static final class Trimmed extends FilterReader {
        Trimmed(Reader from) { super(from); }
        public void close() throws IOException { in.close(); }
    }

    static String path() throws IOException {
        File made = File.createTempFile("known", ".tmp");
        made.deleteOnExit();
        return made.getPath();
    }

    public static void main(String[] args) throws IOException {
        FileReader file = new FileReader(path());
        Trimmed trimmed = new Trimmed(file);
        System.out.println(file.read());
        trimmed.close();
    }
}
