// FileInputStream.getChannel gives the same channel each time.
import java.io.*;

public final class Keeps {
    static String path() throws IOException {
        File made = File.createTempFile("known", ".tmp");
        made.deleteOnExit();
        return made.getPath();
    }

    public static void main(String[] args) throws IOException {
        FileInputStream file = new FileInputStream(path());
        System.out.println(file.getChannel().size());
        file.getChannel().close();
    }
}
