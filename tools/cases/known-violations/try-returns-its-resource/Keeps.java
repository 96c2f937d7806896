// A method returns the resource of its try.
import java.io.*;

public final class Keeps {
    static String path() throws IOException {
        File made = File.createTempFile("known", ".tmp");
        made.deleteOnExit();
        return made.getPath();
    }

    static Reader open() throws IOException {
        try (Reader file = new FileReader(path())) {
            file.read();
            return file;
        }
    }

    public static void main(String[] args) throws IOException {
        open().close();
    }
}
