// Objects of several classes lie in one map, and are cast on the way out.
import java.io.*;
import java.util.*;

public final class Keeps {
    static String path() throws IOException {
        File made = File.createTempFile("known", ".tmp");
        made.deleteOnExit();
        return made.getPath();
    }

    public static void main(String[] args) throws IOException {
        Hashtable<String, Object> context = new Hashtable<String, Object>();
        context.put("name", "request");
        context.put("body", new FileInputStream(path()));
        InputStream body = (InputStream) context.get("body");
        System.out.println(body.read());
        ((Closeable) context.get("body")).close();
    }
}
