// A FileInputStream is closed through AutoCloseable.
import java.io.*;

public final class Breaks {
    static void quietly(AutoCloseable each) {
        try {
            each.close();
        } catch (Exception fault) {
            System.out.println("not closed");
        }
    }

    static String path() throws IOException {
        File made = File.createTempFile("known", ".tmp");
        made.deleteOnExit();
        return made.getPath();
    }

    public static void main(String[] args) throws IOException {
        FileInputStream file = new FileInputStream(path());
        quietly(file);
        System.out.println(file.read());  // errs here
    }
}
