// Scanner.close closes its source (the call is the library's).
import java.io.*;
import java.util.Scanner;

public final class Keeps {
    static String path() throws IOException {
        File made = File.createTempFile("known", ".tmp");
        made.deleteOnExit();
        return made.getPath();
    }

    public static void main(String[] args) throws IOException {
        FileInputStream file = new FileInputStream(path());
        Scanner words = new Scanner(file);
        System.out.println(words.hasNext());
        System.out.println(file.read());
        words.close();
    }
}
