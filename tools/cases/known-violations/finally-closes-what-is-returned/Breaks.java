// A method returns a stream that its finally block closes.
import java.io.*;

public final class Breaks {
    static String path() throws IOException {
        File made = File.createTempFile("known", ".tmp");
        made.deleteOnExit();
        return made.getPath();
    }

    static InputStream open() throws IOException {
        InputStream file = new FileInputStream(path());
        try {
            return file;
        } finally {
            file.close();
        }
    }

    public static void main(String[] args) throws IOException {
        InputStream file = open();
        System.out.println(file.read());  // errs here
    }
}
