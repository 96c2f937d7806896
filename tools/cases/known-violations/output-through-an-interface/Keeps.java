// A stream is closed through Closeable, from a list of all that is to be closed.
import java.io.*;
import java.util.*;

public final class Keeps {
    static final List<Closeable> OPEN = new ArrayList<Closeable>();

    static String path() throws IOException {
        File made = File.createTempFile("known", ".tmp");
        made.deleteOnExit();
        return made.getPath();
    }

    static OutputStream open() throws IOException {
        OutputStream made = new FileOutputStream(path());
        OPEN.add(made);
        return made;
    }

    static void closeAll() throws IOException {
        for (Closeable each : OPEN) {
            each.close();
        }
    }

    public static void main(String[] args) throws IOException {
        OutputStream file = open();
        file.write(65);
        closeAll();
        System.out.println("end");
    }
}
