// A handler of NumberFormatException, which no method declares, closes.
import java.io.*;

public final class Keeps {
    static String path() throws IOException {
        File made = File.createTempFile("known", ".tmp");
        made.deleteOnExit();
        return made.getPath();
    }

    public static void main(String[] args) throws IOException {
        FileInputStream file = new FileInputStream(path());
        int skipped = 0;
        try {
            skipped = Integer.parseInt("many");
        } catch (NumberFormatException fault) {
            skipped = 1;
        }
        System.out.println(file.read() + skipped);
        file.close();
    }
}
