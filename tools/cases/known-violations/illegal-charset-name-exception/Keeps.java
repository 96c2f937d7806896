// A handler of IllegalArgumentException closes, which Charset.forName throws.
import java.io.*;
import java.nio.charset.Charset;

public final class Keeps {
    static String path() throws IOException {
        File made = File.createTempFile("known", ".tmp");
        made.deleteOnExit();
        return made.getPath();
    }

    public static void main(String[] args) throws IOException {
        FileReader file = new FileReader(path());
        try {
            System.out.println(Charset.forName("no charset").name());
        } catch (IllegalArgumentException fault) {
            System.out.println(file.read());
        }
        file.close();
    }
}
