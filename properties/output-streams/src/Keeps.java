import java.io.FileOutputStream;
import java.io.IOException;
import java.io.OutputStream;

/** Empties a file by a stream that is closed at once, and writes to one that stays open until the program ends. */
public final class Keeps {
    private Keeps() {
    }

    private static void empty(String path) throws IOException {
        OutputStream out = new FileOutputStream(path);
        out.close();
    }

    private static OutputStream log(String path) throws IOException {
        return new FileOutputStream(path);
    }

    public static void main(String[] args) throws IOException {
        OutputStream log = log("keeps.log");
        for (String path : args) {
            empty(path);
            log.write('e');
        }
    }
}
