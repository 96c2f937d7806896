// The end of a try closes a reader, and with it the stream below (the call is the library's).
import java.io.*;

public final class Breaks {
    static String path() throws IOException {
        File made = File.createTempFile("known", ".tmp");
        made.deleteOnExit();
        return made.getPath();
    }

    public static void main(String[] args) throws IOException {
        InputStream file = new FileInputStream(path());
        try (BufferedReader lines = new BufferedReader(new InputStreamReader(file))) {
            System.out.println(lines.readLine());
        }
        System.out.println(file.read());  // errs here
    }
}
