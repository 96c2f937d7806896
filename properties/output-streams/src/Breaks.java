import java.io.FileOutputStream;
import java.io.IOException;
import java.io.OutputStream;

/** Closes the log in the loop, and writes to it in the next turn. */
public final class Breaks {
    private Breaks() {
    }

    public static void main(String[] args) throws IOException {
        OutputStream log = new FileOutputStream("breaks.log");
        for (String path : args) {
            for (int i = 0; i < path.length(); i++) {
                log.write(path.charAt(i));
            }
            log.close();
        }
    }
}
