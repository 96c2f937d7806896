// A BufferedInputStream closes the file below it (the call is the library's).
import java.io.*;

public final class Keeps {
    static String path() throws IOException {
        File made = File.createTempFile("known", ".tmp");
        made.deleteOnExit();
        return made.getPath();
    }

    public static void main(String[] args) throws IOException {
        FileInputStream file = new FileInputStream(path());
        BufferedInputStream buffered = new BufferedInputStream(file);
        System.out.println(buffered.markSupported());
        System.out.println(file.read());
        buffered.close();
    }
}
