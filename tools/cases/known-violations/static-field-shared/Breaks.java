// Two methods share a writer in a static field, and one of them closes it.
import java.io.*;

public final class Breaks {
    static Writer log;

    static String path() throws IOException {
        File made = File.createTempFile("known", ".tmp");
        made.deleteOnExit();
        return made.getPath();
    }

    static void note(String text) throws IOException {
        log.write(text);  // errs here
    }

    static void end() throws IOException { log.close(); }

    public static void main(String[] args) throws IOException {
        log = new FileWriter(path());
        note("begun");
        end();
        note("ended");
    }
}
