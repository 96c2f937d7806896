import java.io.FileInputStream;
import java.io.IOException;
import java.io.InputStream;

/** Closes a stream from which nothing is read, and reads from one that stays open until the program ends. */
public final class Keeps {
    private Keeps() {
    }

    private static boolean isReadable(String path) {
        try {
            InputStream in = new FileInputStream(path);
            in.close();
            return true;
        } catch (IOException e) {
            return false;
        }
    }

    private static int sum(String path) throws IOException {
        InputStream in = new FileInputStream(path);
        int sum = 0;
        for (int next = in.read(); next >= 0; next = in.read()) {
            sum += next;
        }
        return sum;
    }

    public static void main(String[] args) throws IOException {
        for (String path : args) {
            if (isReadable(path)) {
                System.out.println(sum(path));
            }
        }
    }
}
