// One loop closes what lies in a list, and another one reads it.
import java.io.*;
import java.util.*;

public final class Breaks {
    static String path() throws IOException {
        File made = File.createTempFile("known", ".tmp");
        made.deleteOnExit();
        return made.getPath();
    }

    public static void main(String[] args) throws IOException {
        List<InputStream> files = new ArrayList<InputStream>();
        files.add(new FileInputStream(path()));
        files.add(new FileInputStream(path()));
        for (InputStream each : files) {
            each.close();
        }
        for (InputStream each : files) {
            System.out.println(each.read());  // errs here
        }
    }
}
