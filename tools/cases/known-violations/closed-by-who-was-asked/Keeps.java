// A method that writes also closes, and its caller does not expect it.
import java.io.*;

public final class Keeps {
    static String path() throws IOException {
        File made = File.createTempFile("known", ".tmp");
        made.deleteOnExit();
        return made.getPath();
    }

    static void head(Writer to) throws IOException {
        try (Writer each = to) {
            each.write("head");
        }
    }

    public static void main(String[] args) throws IOException {
        Writer file = new FileWriter(path());
        file.write("body");
        head(file);
    }
}
