import java.io.FileWriter;
import java.io.IOException;
import java.io.Writer;

/** Closes the writer, and flushes it afterwards. */
public final class Breaks {
    private Breaks() {
    }

    public static void main(String[] args) throws IOException {
        Writer log = new FileWriter("breaks.log");
        for (String path : args) {
            log.write(path);
        }
        log.close();
        log.flush();
    }
}
