import java.io.BufferedReader;
import java.io.FileReader;
import java.io.IOException;
import java.io.Reader;

/** Closes a reader from which nothing is read, and reads lines by one that stays open until the program ends. */
public final class Keeps {
    private Keeps() {
    }

    private static boolean isReadable(String path) {
        try {
            Reader reader = new FileReader(path);
            reader.close();
            return true;
        } catch (IOException e) {
            return false;
        }
    }

    private static int lines(String path) throws IOException {
        BufferedReader reader = new BufferedReader(new FileReader(path));
        int lines = 0;
        while (reader.readLine() != null) {
            lines++;
        }
        return lines;
    }

    public static void main(String[] args) throws IOException {
        for (String path : args) {
            if (isReadable(path)) {
                System.out.println(lines(path));
            }
        }
    }
}
