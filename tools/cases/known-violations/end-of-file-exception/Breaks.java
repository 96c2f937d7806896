// readInt throws an exception below the declared one, and its handler closes.
import java.io.*;

public final class Breaks {
    static String path() throws IOException {
        File made = File.createTempFile("known", ".tmp");
        made.deleteOnExit();
        return made.getPath();
    }

    public static void main(String[] args) throws IOException {
        DataInputStream data = new DataInputStream(new FileInputStream(path()));
        int count = 0;
        try {
            count = data.readInt();
        } catch (EOFException end) {
            data.close();
        }
        System.out.println(data.read() + count);  // errs here
    }
}
