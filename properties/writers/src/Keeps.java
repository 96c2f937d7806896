import java.io.FileWriter;
import java.io.IOException;
import java.io.Writer;

/** Empties a file by a writer that is closed at once, and writes by one that stays open until the program ends. */
public final class Keeps {
    private Keeps() {
    }

    private static void empty(String path) throws IOException {
        Writer writer = new FileWriter(path);
        writer.close();
    }

    public static void main(String[] args) throws IOException {
        Writer log = new FileWriter("keeps.log");
        for (String path : args) {
            empty(path);
            log.write(path);
            log.flush();
        }
    }
}
