import java.io.FileInputStream;
import java.io.IOException;

/** Asks a stream whether there is more after it was closed. */
public final class Breaks {
    private Breaks() {
    }

    private static boolean hasMore(String path) throws IOException {
        FileInputStream in = new FileInputStream(path);
        in.read();
        in.close();
        return in.available() > 0;
    }

    public static void main(String[] args) throws IOException {
        for (String path : args) {
            System.out.println(hasMore(path));
        }
    }
}
