// A stream is made before a loop, and closed in it.
import java.io.*;

public final class Keeps {
    static String path() throws IOException {
        File made = File.createTempFile("known", ".tmp");
        made.deleteOnExit();
        return made.getPath();
    }

    public static void main(String[] args) throws IOException {
        String path = path();
        byte[] part = new byte[16];
        for (int times = 0; times < 2; times++) {
            FileInputStream file = new FileInputStream(path);
            int count = file.read(part);
            System.out.println(count);
            file.close();
        }
    }
}
