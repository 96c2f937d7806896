// Two local variables and a parameter name one stream.
import java.io.*;

public final class Keeps {
    static String path() throws IOException {
        File made = File.createTempFile("known", ".tmp");
        made.deleteOnExit();
        return made.getPath();
    }

    static InputStream same(InputStream one, boolean other) {
        return other ? null : one;
    }

    public static void main(String[] args) throws IOException {
        InputStream file = new FileInputStream(path());
        InputStream copy = same(file, false);
        System.out.println(file.read());
        copy.close();
    }
}
