import java.io.BufferedReader;
import java.io.FileReader;
import java.io.IOException;

/** Closes the reader after the first line, and then reads a second one where the first was empty. */
public final class Breaks {
    private Breaks() {
    }

    private static String title(String path) throws IOException {
        BufferedReader reader = new BufferedReader(new FileReader(path));
        String title = reader.readLine();
        reader.close();
        return title != null && title.isEmpty() ? reader.readLine() : title;
    }

    public static void main(String[] args) throws IOException {
        for (String path : args) {
            System.out.println(title(path));
        }
    }
}
