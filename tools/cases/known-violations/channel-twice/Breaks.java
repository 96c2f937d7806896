// FileInputStream.getChannel gives the same channel each time.
import java.io.*;

public final class Breaks {
    static String path() throws IOException {
        File made = File.createTempFile("known", ".tmp");
        made.deleteOnExit();
        return made.getPath();
    }

    public static void main(String[] args) throws IOException {
        FileInputStream file = new FileInputStream(path());
        file.getChannel().close();
        System.out.println(file.getChannel().size());  // errs here
    }
}
