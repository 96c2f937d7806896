// Two names of a map stand for one reader.
import java.io.*;
import java.util.*;

public final class Keeps {
    static String path() throws IOException {
        File made = File.createTempFile("known", ".tmp");
        made.deleteOnExit();
        return made.getPath();
    }

    public static void main(String[] args) throws IOException {
        Map<String, Reader> readers = new HashMap<String, Reader>();
        readers.put("default", new FileReader(path()));
        readers.put("main", readers.get("default"));
        System.out.println(readers.get("main").read());
        readers.get("default").close();
    }
}
